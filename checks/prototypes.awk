# The C prototype of each `#[unsafe(no_mangle)] pub extern "C" fn` in the Rattle sources given: a lent slice is a pointer
# and its length. A type that is not known here stays as it is, so that the C compiler refuses it.

function trim(text) {
    gsub(/^[ \t]+|[ \t]+$/, "", text)
    return text
}

function plain(type) {
    if (type == "u8") return "uint8_t"
    if (type == "u16") return "uint16_t"
    if (type == "u32") return "uint32_t"
    if (type == "u64") return "uint64_t"
    if (type == "i8") return "int8_t"
    if (type == "i16") return "int16_t"
    if (type == "i32") return "int32_t"
    if (type == "i64") return "int64_t"
    if (type == "usize") return "size_t"
    if (type == "bool") return "_Bool"
    if (type == "f64") return "double"
    if (type == "") return "void"
    return type
}

# A pointer to a value, an array of a fixed length, or, in a slice of arrays, a pointer to arrays.
function pointer(type, const, in_slice,    part) {
    if (type !~ /^\[.*;.*\]$/) return const plain(type) " *"
    split(substr(type, 2, length(type) - 2), part, ";")
    return const plain(trim(part[1])) (in_slice ? " (*)[" : " [") trim(part[2]) "]"
}

function parameter(type,    const) {
    if (type !~ /^&/) return plain(type)
    type = trim(substr(type, 2))
    const = "const "
    if (type ~ /^mut /) {
        const = ""
        type = trim(substr(type, 5))
    }
    # A slice has no ";" at its own level: [u64], [[u64; 50]].
    if (type ~ /^\[\[.*\]\]$/ || (type ~ /^\[/ && type !~ /;/))
        return pointer(trim(substr(type, 2, length(type) - 2)), const, 1) ", size_t"
    return pointer(type, const, 0)
}

function prototype(text,    name, list, result, count, part, i, out) {
    sub(/^.*extern "C" fn /, "", text)
    name = text
    sub(/\(.*/, "", name)
    list = text
    sub(/^[^(]*\(/, "", list)
    result = list
    sub(/\).*/, "", list)
    sub(/^[^)]*\)/, "", result)
    sub(/^ *-> */, "", result)
    count = split(list, part, ",")
    out = ""
    for (i = 1; i <= count; i++) {
        sub(/^[^:]*:/, "", part[i])
        part[i] = trim(part[i])
        if (part[i] != "") out = out (out == "" ? "" : ", ") parameter(part[i])
    }
    print plain(trim(result)) " " trim(name) "(" (out == "" ? "void" : out) ");"
}

/^#\[unsafe\(no_mangle\)\]/ { wanted = 1; next }
wanted && /extern "C" fn/ { collecting = 1; text = "" }
collecting {
    line = $0
    # The signature ends before its contract or its body.
    if (line ~ /^ *(requires|ensures|\{)/) {
        prototype(text)
        collecting = wanted = 0
        next
    }
    if (line ~ /\{ *$/) {
        sub(/\{ *$/, "", line)
        prototype(text " " trim(line))
        collecting = wanted = 0
        next
    }
    text = text " " trim(line)
}
