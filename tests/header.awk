# From the sources of the crates, prints a C program that compiles only where include/janlishuk.h has each exported call with the types of
# its Rattle text and with the names of its parameters, and each struct that a call takes or gives back with the size, the offsets and the
# types of its #[repr(C)] struct. A struct within a struct is flat in C, under the names of its own fields, or, where it only wraps a
# number, under the name of the outer field.

function c_type(type) {
    return type == "u8" ? "uint8_t" : type == "u32" ? "uint32_t" : type == "f64" ? "double" : type in fields ? "struct " type : "unknown_" type
}

# an array's length, a number or a constant, from its text up to the closing bracket
function count(text) {
    sub(/\]$/, "", text)
    return text in value ? value[text] : text
}

# a parameter as C has it: a slice is a pointer and a length
function c_parameter(type) {
    if (type ~ /^&(mut )?\[u(8|32)\]$/) return (type ~ /^&mut/ ? "" : "const ") c_type(substr(type, index(type, "[") + 1, length(type) - index(type, "[") - 1)) " *, size_t"
    return type in header ? "struct " header[type] : c_type(type)
}

# a parameter's names as C has them: a slice is a pointer and a length, that of the file `length`
function c_names(name, type) {
    if (type !~ /^&/) return name
    return name " " (name == "file" ? "length" : name (type ~ /^&mut/ ? "_room" : "_count"))
}

# prints a struct, after those that it holds
function print_struct(name,    n, i, part, field) {
    if (printed[name]++) return
    n = split(fields[name], part, ";")
    for (i = 1; i <= n; i++) {
        split(part[i], field, ":")
        if (field[2] in fields) print_struct(field[2])
    }
    print "struct " name " {"
    for (i = 1; i <= n; i++) {
        split(part[i], field, ":")
        if (match(field[2], /^\[.*,/)) print "    " c_type(substr(field[2], 2, RLENGTH - 2)) " " field[1] "[" count(substr(field[2], RLENGTH + 1)) "];"
        else print "    " c_type(field[2]) " " field[1] ";"
    }
    print "};"
}

# prints what each field of a struct, at a path below the outer one, must be in the header's struct
function print_fields(type, path, outer, c,    n, i, part, field, name) {
    n = split(fields[type], part, ";")
    for (i = 1; i <= n; i++) {
        split(part[i], field, ":")
        name = field[1] == "only" ? outer : field[1]
        if (field[2] in fields) print_fields(field[2], path field[1] ".", name, c)
        else print "SAME(" top ", " path field[1] ", " c ", " name ");"
    }
}

# keeps the value of a name, of which there may be one alone
function keep(name, number) {
    if (!(name in value)) value[name] = number
    else if (value[name] != number) value[name] = "two_values_of_" name
}

/^#\[repr\(C\)\]/ { repr = 1; next }
repr && match($0, /^pub struct [A-Za-z]+/) {
    name = substr($0, 12, RLENGTH - 11)
    inside = /\{$/
    if (!inside) { gsub(/.*\(pub |\);/, ""); fields[name] = "only:" $0 }
    repr = 0
    next
}
inside && /^}/ { inside = 0 }
inside && /^    pub / {
    gsub(/^    pub |,$| /, "")
    sub(/; */, ",")
    fields[name] = fields[name] (fields[name] == "" ? "" : ";") $0
}
match($0, /const [A-Z_]+: (u32|usize) = [0-9]+;/) {
    split(substr($0, RSTART, RLENGTH), word, /[ :;]+/)
    keep(word[2], word[5])
}
# a case of an enum with its number, by its name in capitals
match($0, /^    [A-Z][A-Za-z]+ = [0-9]+,$/) {
    split($0, word, /[ ,]+/)
    keep(toupper(word[2]), word[4])
}
/^pub extern "C" fn / { signature = ""; reading = 1 }
reading { signature = signature $0 " " }
reading && /-> / {
    reading = 0
    gsub(/^pub extern "C" fn | *ensures.*/, "", signature)
    call = substr(signature, 1, index(signature, "(") - 1)
    match(signature, /\).*-> /)
    parameters[call] = substr(signature, length(call) + 2, RSTART - length(call) - 2)
    result = substr(signature, RSTART + RLENGTH)
    gsub(/ /, "", result)
    gives[call] = result
    # a struct that several calls give back has the name of the first
    if (!(result in header)) header[result] = call "_answer"
}

END {
    header["Point"] = "janlishuk_point"
    print "#include \"janlishuk.h\""
    print "#define TYPE(type, field) __typeof__(((struct type *)0)->field)"
    print "#define SAME(own, path, c, field) \\"
    print "    _Static_assert(offsetof(struct own, path) == offsetof(struct c, field), #c \".\" #field); \\"
    print "    _Static_assert(__builtin_types_compatible_p(TYPE(own, path), TYPE(c, field)), #c \".\" #field)"
    while ((getline line < "include/janlishuk.h") > 0) {
        text = text " " line
        if (match(line, /^#define JANLISHUK_[A-Z_]+ [0-9]+/)) {
            split(line, word, " ")
            constant = substr(word[2], 11)
            print "_Static_assert(" word[2] " == " (constant in value ? value[constant] : "unknown_" constant) ", \"" constant "\");"
        }
    }
    for (top in header) {
        print_struct(top)
        print "_Static_assert(sizeof(struct " top ") == sizeof(struct " header[top] "), \"" top "\");"
        print_fields(top, "", "", header[top])
    }
    for (call in gives) {
        list = names = ""
        n = split(parameters[call], part, ",")
        for (i = 1; i <= n; i++) {
            own = part[i]
            gsub(/^ +|:.*/, "", own)
            sub(/^[^:]*: */, "", part[i])
            gsub(/ +$/, "", part[i])
            if (part[i] != "") list = list (list == "" ? "" : ", ") c_parameter(part[i])
            if (part[i] != "") names = names " " c_names(own, part[i])
        }
        # the header's own names, in their order
        declared = substr(text, index(text, " " call "(") + length(call) + 2)
        declared = substr(declared, 1, index(declared, ")") - 1)
        n = split(declared, part, ",")
        declared = ""
        for (i = 1; i <= n; i++) {
            sub(/ +$/, "", part[i])
            sub(/.*[ *]/, "", part[i])
            declared = declared " " part[i]
        }
        if (declared != names) print "#error " call " has the names" names ", and the header" declared
        print "struct " header[gives[call]] " (*own_" call ")(" list ") = " call ";"
        all = all " && own_" call
    }
    print "int main(void) { return !(1" all "); }"
}
