#!/usr/bin/env bash
# Tests what C, Rust and Python call, over the libraries that `rt ci` leaves built. What the machine has no tool for is
# said and left out. DUMAREWHI_LIB=FOLDER takes libdumarewhi_c.a from there, in place of building it.
set -uo pipefail
cd "$(dirname "$0")"
room=$(mktemp -d)
trap 'rm -rf "$room"' EXIT
passed=0
failed=0
: > "$room/in"

# says NAME COMMAND..: the command succeeds
says() {
    local name=$1
    shift
    if "$@" > "$room/log" 2>&1; then
        passed=$((passed + 1))
        echo "ok: $name${shown:+: $(tail -n 1 "$room/log")}"
    else
        failed=$((failed + 1))
        echo "FAILED: $name"
        tail -n 20 "$room/log"
    fi
}

# prints NAME STATUS TEXT COMMAND..: the command reads $room/in, writes exactly this text, and ends with this status.
# What it tells of errors is in $room/errors
prints() {
    local name=$1 status=$2 text=$3
    shift 3
    "$@" < "$room/in" > "$room/out" 2> "$room/errors"
    local ended=$?
    if [ "$ended" = "$status" ] && [ "$(cat "$room/out")" = "$text" ]; then
        passed=$((passed + 1))
        echo "ok: $name"
    else
        failed=$((failed + 1))
        echo "FAILED: $name: status $ended"
        diff <(echo "$text") "$room/out" | head -n 20
        cat "$room/errors"
    fi
}

has() { command -v "$1" > /dev/null && return 0; echo "left out: $2 (there is no $1)"; return 1; }

root=$(cd .. && pwd)

says "the declarations are what callers/make makes" ./make --check

octets() { printf "%b" "$(echo "$1" | tr -d ' \n' | sed 's/../\\x&/g')"; }

if [ -n "${DUMAREWHI_LIB:-}" ]; then
    archive=$DUMAREWHI_LIB/libdumarewhi_c.a
else
    archive=$room/libdumarewhi_c.a
    says "the archive is built" ./archive.sh "$archive"
fi
[ -f "$archive" ] || { echo "callers: $passed passed, $((failed + 1)) failed"; exit 1; }

# Any C compiler may call these three, as it did for the library.
has nm "undefined symbols" && says "the archive needs no other library" \
    bash -c "! nm -u '$archive' | grep ' U ' | grep -vE ' (memcpy|memmove|memset)\$'"

# compile NAME PROGRAM: a test of callers/c, or a program of callers/c/examples.
compile() {
    local source=c/$1.c
    [ -f "$source" ] || source=c/examples/$1.c
    cc -std=c99 -Wall -Wextra -Werror -O2 "${@:3}" -Ic/include "$source" "$archive" -o "$room/$2"
}

# Each size of a length is written, and openssl reads it.
run_sized() {
    local size
    for size in 0 1 125 126 127 128 255 256 65535 65536; do
        openssl asn1parse -inform DER -in "$room/sized.$size" > "$room/parsed" || return
        [ "$(sed -n '3s/.* l= *\([0-9]*\) prim: OCTET STRING.*/\1/p' "$room/parsed")" = "$size" ] || return
    done
}

# openssl lists the elements of random trees as they were put.
run_trees() {
    "$room/trees" "$room" 100000 || return
    openssl asn1parse -inform DER -in "$room/trees.der" | LC_ALL=C sed -nE \
        -e 's/^ *([0-9]+:d=[0-9]+) +(hl=[0-9]+) +l= *([0-9]+ (prim|cons): )/\1 \2 l=\3/; T' \
        -e 's/: (INTEGER|ENUMERATED) *:/: \1:/; t named' -e 's/: ([A-Z0-9 ]*[A-Z0-9]) *[:[].*/: \1/' \
        -e ': named; s/ *$//; p' > "$room/trees.parsed" || return
    cmp "$room/trees.parsed" "$room/trees.lines"
}

# run_csr PROGRAM: openssl signs what is written, and verifies the request that is written of it.
run_csr() (
    cd "$room" && openssl genpkey -algorithm EC -pkeyopt ec_paramgen_curve:P-256 -out private.pem \
        && openssl pkey -in private.pem -pubout -outform DER -out key && "$1" info key example.org > info \
        && openssl dgst -sha256 -sign private.pem -out signature info && "$1" request info signature > request \
        && openssl req -inform DER -in request -noout -verify \
        && openssl req -inform DER -in request -noout -subject | grep -q "CN *= *example.org" \
        && openssl req -inform DER -in request -noout -text | grep -q "DNS:example.org"
)

# Lists in extensions that openssl makes, in its words. Where it ends lines isn't compared.
run_extensions() (
    cd "$room" && openssl req -x509 -newkey ec -pkeyopt ec_paramgen_curve:P-256 -nodes -keyout ec.pem -days 30 \
        -out extensions.pem -config "$root/callers/c/extensions.cnf" \
        && openssl x509 -in extensions.pem -outform DER -out extensions.der || return
    local kinds=certificatePolicies,crlDistributionPoints,nameConstraints,authorityInfoAccess,subjectInfoAccess
    kinds=$kinds,policyMappings,policyConstraints,inhibitAnyPolicy,tlsfeature,noCheck,issuingDistributionPoint
    kinds=$kinds,crlNumber,deltaCRL,invalidityDate,certificateIssuer,freshestCRL
    openssl x509 -in extensions.pem -noout -ext "$kinds" | tr -s ' \n' '\n' > wanted \
        && "$room/openssl_extensions" < extensions.der | tr -s ' \n' '\n' > words \
        && grep -q "http://l.org/" words && cmp wanted words
)

# The octets of a key in PKCS #8, and the numbers of one of RSA, as openssl lists its elements.
run_key() {
    local inside
    "$room/private_key" < "$1" > fields && [ "$(head -n 1 fields)" = "$2" ] || return
    "$room/private_key" octets < "$1" > octets || return
    inside=$(openssl asn1parse -inform DER -in "$1" | sed -n 's/^ *\([0-9]*\):d=1 .*OCTET STRING.*/\1/p')
    openssl asn1parse -inform DER -in "$1" -strparse "$inside" -out wanted > parsed && cmp octets wanted || return
    case $2 in 1.2.840.113549.1.1.1*) sed -n 's/.*INTEGER *://p' parsed | diff - <(tail -n +2 fields) ;; esac
}

# A key of a curve in a file of its own, a public key of RSA, and an encrypted key, as openssl lists their elements.
run_other_keys() {
    openssl ec -in ec.pem -outform DER -out ec.sec1 && openssl asn1parse -inform DER -in ec.sec1 > parsed || return
    {
        sed -n 's/.*INTEGER *://p; s/.*OCTET STRING.*DUMP\]://p' parsed
        echo "parameters of tag 6"
        openssl pkey -in ec.pem -pubout -outform DER | tail -c 65 | od -An -tx1 | tr -d ' \n' | tr a-f A-F
        echo
    } > wanted
    "$room/private_key" curve < ec.sec1 > fields && cmp fields wanted || return
    openssl pkey -in rsa.pem -pubout -outform DER -out rsa.pub || return
    {
        echo "1.2.840.113549.1.1.1, parameters of tag 5"
        openssl asn1parse -inform DER -in rsa.pub -strparse 19 | sed -n 's/.*INTEGER *://p'
    } > wanted
    "$room/private_key" public < rsa.pub > fields && cmp fields wanted || return
    openssl pkcs8 -topk8 -in ec.pem -outform DER -passout pass:secret -out encrypted.key || return
    {
        echo "1.2.840.113549.1.5.13, parameters of tag 16"
        openssl asn1parse -inform DER -in encrypted.key | sed -n 's/.*:d=1 .*OCTET STRING.*DUMP\]://p'
    } > wanted
    "$room/private_key" encrypted < encrypted.key > fields && cmp fields wanted
}

run_keys() (
    cd "$room" && openssl genpkey -algorithm RSA -pkeyopt rsa_keygen_bits:2048 -out rsa.pem \
        && openssl genpkey -algorithm ED25519 -out ed25519.pem || return
    for name in rsa ec ed25519; do
        openssl pkcs8 -topk8 -nocrypt -in $name.pem -outform DER -out $name.key || return
    done
    run_key rsa.key "1.2.840.113549.1.1.1, parameters of tag 5" \
        && run_key ec.key "1.2.840.10045.2.1, parameters of tag 6" && run_key ed25519.key "1.3.101.112" \
        && run_other_keys && echo "3 private keys, one of a curve by itself, a public one and an encrypted one"
)

# Texts that openssl writes, and what it says they encode.
run_pem() (
    cd "$room" || return
    { echo "a text"; cat extensions.pem rsa.pem; sed 's/^/  > /' extensions.pem; cat ec.pem ed25519.pem; } > bundle
    row() { echo "$1 $(wc -c < "$2") $(sha256sum < "$2" | cut -d' ' -f1)"; }
    {
        row CERTIFICATE extensions.der && row "PRIVATE KEY" rsa.key && row CERTIFICATE extensions.der \
            && row "PRIVATE KEY" ec.key && row "PRIVATE KEY" ed25519.key
    } > wanted
    "$room/pem" < bundle > blocks && cmp wanted blocks && echo "$(wc -l < blocks) blocks"
)

# The answer to the GetRequest for three objects: the name, the time, and that there is no third.
octets "30 5e 02 01 01 04 06 70 75 62 6c 69 63 a2 51 02 04 71 68 2a 51 02 01 00 02 01 00 30 43 30 23 06 08 2b 06 01 02
    01 01 01 00 04 17 61 6e 20 65 78 61 6d 70 6c 65 20 6f 66 20 64 75 6d 61 72 65 77 68 69 30 0e 06 08 2b 06 01 02 01
    01 03 00 43 02 10 68 30 0c 06 08 2b 06 01 02 01 01 09 00 80 00" > "$room/answer"
run_reply() { "$1" < c/examples/request.snmp > "$room/reply" && cmp "$room/reply" "$room/answer"; }

run_c() {
    for name in first tree certificate snmp count layout rows errors tables csr snmp_reply writer trees agreement \
        certificate_rows openssl_fields openssl_extensions fields private_key pem found keys identifiers; do
        says "$name.c compiles" compile $name $name
    done
    says "the header is C99 and C++11" run_header
    says "stack.c compiles" compile stack stack -pthread
    shown=yes
    for name in rows errors stack fields found; do says "$name" "$room/$name"; done
    says "layout" "$room/layout" c/layout.rows
    says "keys" "$room/keys" c/keys.rows
    says "identifiers" "$room/identifiers" c/identifiers.rows
    says "writer" "$room/writer" "$room"
    says "rows of the library's tests" "$room/tables" ../tests/rows*/data/*/*.rows
    says "rows about certificates" "$room/certificate_rows" ../tests/rows/data/certificates/*.rows \
        ../tests/rows/data/messages/{messages,names}.rows ../tests/rows/data/rules/names.rows \
        ../tests/rows/data/rules/[!n]*.rows
    shown=

    prints "first" 0 "$(printf 'type 16, octets 2 to 8\ntype 2, octets 4 to 5\ntype 1, octets 7 to 8')" "$room/first"

    # X.690 8.9.3 in BER, and what follows it
    octets "30 80 16 05 53 6d 69 74 68 01 01 ff 00 00 07" > "$room/smith"
    prints "tree by BER" 0 '     0 [universal 16] 10 octets, indefinite
     2   [universal 22] "Smith"
     9   [universal 1] true
3 elements in 14 octets, 1 octets follow' "$room/tree" ber "$room/smith"
    prints "tree by DER" 1 "" "$room/tree" der "$room/smith"
    says "tree tells why" grep -q "^at 0: DER constraint failed: indefinite length$" "$room/errors"
    octets "0c 06 61 0a e2 80 ae 62" > "$room/turned"
    prints "tree of a text that turns" 0 '     0 [universal 12] "a\x0a\xe2\x80\xaeb"
1 elements in 8 octets, 0 octets follow' "$room/tree" der "$room/turned"

    octets "$(printf '30 0a 16 05 53 6d 69 74 68 01 01 ff%.0s' $(seq 2000))" > "$room/many"
    prints "count" 0 "6000 objects, 2000 of them outermost, in 24000 octets" "$room/count" der "$room/many"

    # Two requests of RFC 1157, the second with a length of indefinite form
    octets "30 26 02 01 00 04 06 70 75 62 6c 69 63 a0 19 02 01 2a 02 01 00 02 01 00 30 0e 30 0c 06 08 2b 06 01 02 01 01
        01 00 05 00" > "$room/in"
    octets "30 80 02 01 01 04 06 70 75 62 6c 69 63 a1 19 02 01 2b 02 01 00 02 01 00 30 0e 30 0c 06 08 2b 06 01 02 01 01
        03 00 05 00 00 00" >> "$room/in"
    cp "$room/in" "$room/messages"
    prints "SNMP" 0 "version 0, community public: get 42 1.3.6.1.2.1.1.1.0
version 1, community public: get-next 43 1.3.6.1.2.1.1.3.0" "$room/snmp"
    head -c 81 "$room/messages" > "$room/in"
    prints "SNMP that is cut short" 1 "version 0, community public: get 42 1.3.6.1.2.1.1.1.0" "$room/snmp"
    says "SNMP tells what is missing" grep -q "^the stream ends within a message, 1 octets are missing$" "$room/errors"
    : > "$room/in"
    prints "SNMP of no octets" 0 "" "$room/snmp"
    { head -c 3 "$room/messages"; sleep 0.2; tail -c +4 "$room/messages"; } | "$room/snmp" > "$room/out"
    says "SNMP that comes in pieces" grep -q "get-next 43" "$room/out"
    says "SNMP that is answered" run_reply "$room/snmp_reply"
    # The version is [2] and no INTEGER; a community with a newline, an escape, a backslash and U+202E
    octets "30 26 82 01 01 04 06 70 75 62 6c 69 63 a0 19 02 01 2a 02 01 00 02 01 00 30 0e 30 0c 06 08 2b 06 01 02 01 01
        01 00 05 00" > "$room/in"
    for name in snmp snmp_reply; do
        prints "SNMP with a version of another class: $name.c" 1 "" "$room/$name"
        says "$name.c tells the tag" grep -q ": at 2: unexpected class, found \[2\]$" "$room/errors"
    done
    octets "30 26 02 01 00 04 06 0a 1b 5c e2 80 ae a0 19 02 01 2a 02 01 00 02 01 00 30 0e 30 0c 06 08 2b 06 01 02 01 01
        01 00 05 00" > "$room/in"
    prints "SNMP with a community that turns the text" 0 \
        'version 0, community \x0a\x1b\x5c\xe2\x80\xae: get 42 1.3.6.1.2.1.1.1.0' "$room/snmp"
    if has openssl "elements and requests that openssl reads"; then
        says "elements as openssl reads them" run_sized
        shown=yes says "random trees as openssl reads them" run_trees
        says "a certificate of names that turn the text is made" make_hostile
        prints_certificates "certificate.c" "$room/certificate"
        says "a request that openssl verifies" run_csr "$room/csr"
        says "extensions in the words of openssl" run_extensions
        shown=yes
        says "private keys as openssl writes them" run_keys
        says "PEM as openssl writes it" run_pem
        shown=
    fi

    # RFC 7468 2 and 3; RFC 1421 4.6.1.1
    printf '%s\n' "a text" "-----BEGIN A-----" "Proc-Type: 4,ENCRYPTED" "" "AAAA" "-----END A-----" \
        "-----BEGIN B-----" "AQI=" "-----END B-----" "> -----BEGIN C-----" "> !" "> -----END C-----" \
        "in a line -----BEGIN X-----" "-----BEGIN D-----" "-----END E-----" > "$room/in"
    prints "blocks of PEM" 1 "the block is encrypted
B 2 a12871fee210fb8619291eaea194581cbd2531e4b23759d225f6806923f63222
invalid base64
a block whose first and last line have other labels" "$room/pem"
    printf '%s\n' "-----BEGIN A-----" "AQI=" "-----BEGIN B-----" "AQI=" "-----END B-----" > "$room/in"
    prints "a block of PEM without an end" 1 "a block without its line -----END ..-----" "$room/pem"
    : > "$room/in"
    prints "PEM of no octets" 0 "" "$room/pem"
}

# The header compiles without a warning, as C and as C++ where there is a compiler for it.
run_header() {
    printf '#include "dumarewhi.h"\nint main(void) { return (int)(dm_version() - DM_VERSION); }\n' > "$room/header.c"
    cp "$room/header.c" "$room/header.cpp"
    cc -std=c99 -Wall -Wextra -pedantic -Werror -Ic/include "$room/header.c" "$archive" -o "$room/header" || return
    "$room/header" || return
    ! command -v c++ > /dev/null && return
    c++ -std=c++11 -Wall -Wextra -pedantic -Werror -Ic/include "$room/header.cpp" "$archive" -o "$room/header"
}

# run_readme WORD: the command of README that begins with it, as it stands there, in a copy of what it names.
run_readme() (
    command=$(sed -n "s/^    \\($1 .*\\)\$/\\1/p" ../README.md)
    copy=$room/of_readme
    if [ ! -d "$copy" ]; then
        mkdir -p "$copy/callers" "$copy/crates/dumarewhi_c/out" && cp -r c rust "$copy/callers" \
            && cp "$archive" "$copy/crates/dumarewhi_c/out" \
            && cp ../crates/der/data/certificate.der "$copy/FILE" || return
    fi
    [ -n "$command" ] && cd "$copy" && CARGO_NET_OFFLINE=true CARGO_TARGET_DIR=$room/target_of_readme \
        env -u DUMAREWHI_LIB sh -ec "$command"
)

# block LANGUAGE NUMBER [FILE]: the lines of README's block with this number among those in this language.
block() {
    awk -v begin="\`\`\`$1" -v wanted="$2" '$0 == begin { on = ++seen == wanted; next } /^```$/ { on = 0 } on' \
        "${3:-../README.md}"
}

pem_of() { echo "-----BEGIN CERTIFICATE-----"; base64 < "$1"; echo "-----END CERTIFICATE-----"; }

# The lines of README for C, in a program that reads a certificate.
run_readme_block() {
    {
        printf '#include "dumarewhi.h"\n#include <stdio.h>\nint main(void) {\nstatic uint8_t octets[65536];\n'
        printf 'size_t length = fread(octets, 1, sizeof octets, stdin);\n'
        block c 1
        echo 'return 0; }'
    } > "$room/readme.c"
    cc -std=c99 -Wall -Wextra -pedantic -Werror -Ic/include "$room/readme.c" "$archive" -o "$room/readme" || return
    [ "$("$room/readme" < ../crates/der/data/certificate.der)" = "valid until 2027" ]
}

# Those of c/README.md, in at most ten lines, with a certificate in DER and in PEM
run_readme_of_c() {
    local der=../crates/der/data/certificate.der file
    {
        printf '#include "dumarewhi.h"\n#include <stdio.h>\n#include <time.h>\nstatic uint8_t file[65536];\n'
        sed -n '/^static void print_text/,/^}/p' c/examples/certificate.c
        printf 'int main(void) {\nsize_t length = fread(file, 1, sizeof file, stdin);\n'
        block c 1 c/README.md
        echo 'return 0; }'
    } > "$room/short.c"
    [ "$(block c 1 c/README.md | wc -l)" -le 10 ] || return
    cc -std=c99 -Wall -Wextra -pedantic -Werror -Ic/include "$room/short.c" "$archive" -o "$room/short" || return
    pem_of "$der" > "$room/short.pem"
    for file in "$der" "$room/short.pem"; do
        "$room/short" < "$file" | sed 's/^valid now: [01]$/as the clock says/' > "$room/shown" || return
        [ "$(cat "$room/shown")" = $'as the clock says\nexample.org' ] || return
    done
}

# Digits behind a backslash in lower case.
lowered() { sed 's/\\[0-9A-F][0-9A-F]/\L&/g'; }

# What openssl says of a certificate in DER, as the examples in C and Rust print it.
openssl_certificate() {
    openssl x509 -inform DER -in "$1" -noout -issuer -dates -subject -nameopt RFC2253 -dateopt iso_8601 | lowered \
        | sed 's/^\(subject\|issuer\)=/\1: /; s/^notBefore=\(.*\) /not before: \1T/
            s/^notAfter=\(.*\) /not after: \1T/'
}
fields_of_certificate() { grep -E '^(issuer|subject|not before|not after): '; }
run_readme_example() {
    run_readme "$1" > "$room/fields" || return
    diff <(openssl_certificate ../crates/der/data/certificate.der) <(fields_of_certificate < "$room/fields")
}

# A certificate with a key of 2048 bits, whose common name has a newline and a mark that turns the direction of a text
# (U+202E), and whose name of DNS has a newline; the same in PEM; and one whose serial number is [2].
make_hostile() (
    local at
    printf '%s\n' '[req]' 'distinguished_name = name' 'x509_extensions = extensions' 'prompt = no' 'utf8 = yes' \
        'string_mask = utf8only' '[name]' $'CN = a\\nsubject: b\xe2\x80\xaec' '[extensions]' \
        'subjectAltName = ASN1:SEQUENCE:names' '[names]' 'host = IMPLICIT:2,IA5STRING:a\nDNS: b' > "$room/hostile.cnf"
    openssl req -x509 -newkey rsa:2048 -nodes -keyout "$room/hostile.key" -days 30 -config "$room/hostile.cnf" \
        -outform DER -out "$room/hostile.der" \
        && openssl x509 -inform DER -in "$room/hostile.der" -out "$room/hostile.pem" \
        && cp "$room/hostile.der" "$room/wrong.der" || return
    at=$(openssl asn1parse -inform DER -in "$room/wrong.der" | sed -n 's/^ *\([0-9]*\):d=2 .*INTEGER.*/\1/p' | head -n 1)
    printf '\x82' | dd of="$room/wrong.der" bs=1 seek="$at" conv=notrunc status=none
)

# prints_certificates NAME PROGRAM..: the program prints a certificate as openssl does, in DER and PEM, printable ASCII
# alone, and refuses what is none.
run_hostile_certificate() {
    "$@" "$room/hostile.der" > "$room/fields" && "$@" "$room/hostile.pem" | cmp - "$room/fields" || return
    diff <(openssl_certificate "$room/hostile.der") <(fields_of_certificate < "$room/fields") || return
    grep -q '^subject: CN=a\\0asubject: b\\e2\\80\\aec$' "$room/fields" || return
    openssl x509 -inform DER -in "$room/hostile.der" -noout -text | grep -q 'Public-Key: (2048 bit)' || return
    grep -q '^key: 1.2.840.113549.1.1.1, 2048 bits$' "$room/fields" || return
    [ "$(grep -c 'DNS:' "$room/fields")" = 1 ] && ! LC_ALL=C grep -q '[^ -~]' "$room/fields"
}
refuses() {
    local told=$1
    shift
    ! "$@" > "$room/fields" 2> "$room/errors" && [ ! -s "$room/fields" ] && grep -q "$told" "$room/errors"
}
prints_certificates() {
    local name=$1
    shift
    says "$name prints names that turn the text" run_hostile_certificate "$@"
    says "$name refuses a serial number of another class" \
        refuses 'serialNumber at [0-9]*: unexpected class, found \[2\]$' "$@" "$room/wrong.der"
    says "$name refuses what is neither DER nor PEM" refuses 'neither DER nor PEM$' "$@" ../crates/der/data/request.snmp
    says "$name refuses PEM without a certificate" refuses 'no block has the label CERTIFICATE$' "$@" "$room/hostile.key"
    says "$name refuses a certificate that is cut short" refuses 'cut short' "$@" ../crates/der/data/cut.der
}

# The fields that openssl_fields.c prints are those that openssl prints. Alternative names of other kinds than texts are
# printed in other words, and aren't compared. Nor are certificates with the value of an extension that isn't by DER,
# with which the program ends with status 3.
run_openssl_fields() {
    local same=0 others=0 wrong=0 name status
    local words="-noout -serial -subject -issuer -dates -fingerprint -sha256 -nameopt RFC2253 -dateopt iso_8601"
    words="$words -ext basicConstraints,keyUsage,subjectKeyIdentifier,authorityKeyIdentifier,subjectAltName"
    local unnamed="DirName:|othername:"
    for name in $(find /etc/ssl/certs /usr/share/ca-certificates -name '*.crt' 2> /dev/null | head -n "$1"); do
        openssl x509 -in "$name" -outform DER -out "$room/field.der" || continue
        openssl x509 -inform DER -in "$room/field.der" $words 2> /dev/null | lowered > "$room/wanted"
        "$room/openssl_fields" < "$room/field.der" > "$room/fields"
        status=$?
        if [ "$status" = 0 ] && cmp -s "$room/wanted" "$room/fields"; then
            same=$((same + 1))
        elif [ "$status" = 3 ] || { [ "$status" = 0 ] && grep -qE "$unnamed" "$room/wanted"; }; then
            others=$((others + 1))
        else
            wrong=$((wrong + 1))
            echo "$name"
        fi
    done
    echo "$same certificates with the fields that openssl prints, $wrong not, $others that aren't compared"
    [ "$wrong" = 0 ] && [ "$same" -gt 0 ]
}

# A certificate of the machine's is valid from its first second to its last, and has the DNS names that openssl prints;
# the same in PEM.
run_found() {
    local same=0 wrong=0 name said begin end
    for name in $(find /etc/ssl/certs /usr/share/ca-certificates -name '*.crt' 2> /dev/null | head -n "$1") \
        "$room/extensions.pem"; do
        said=$(openssl x509 -in "$name" -noout -dates -ext subjectAltName -dateopt iso_8601 2> /dev/null) || continue
        begin=$(date -u -d "$(echo "$said" | sed -n 's/notBefore=//p')" +%s)
        end=$(date -u -d "$(echo "$said" | sed -n 's/notAfter=//p')" +%s)
        {
            echo 0110
            echo "$said" | grep -o 'DNS:[^,]*' | sed 's/DNS://'
        } > "$room/wanted"
        openssl x509 -in "$name" -outform DER -out "$room/found.der" || return
        if [ "$begin" -gt 0 ] && "$room/found" $((begin - 1)) "$begin" "$end" $((end + 1)) < "$name" > "$room/fields" \
            && cmp -s "$room/wanted" "$room/fields" \
            && "$room/found" $((begin - 1)) "$begin" "$end" $((end + 1)) < "$room/found.der" | cmp -s - "$room/fields"; then
            same=$((same + 1))
        else
            wrong=$((wrong + 1))
            echo "$name"
        fi
    done
    echo "$same certificates that are valid as long as openssl says, $wrong not"
    [ "$wrong" = 0 ] && [ "$same" -gt 0 ]
}

# The serial number, the dates and how many of the machine's certificates were read are compared with openssl's.
run_certificates() {
    local read=0 wrong=0 name
    for name in $(find /etc/ssl/certs /usr/share/ca-certificates -name '*.crt' 2> /dev/null | head -n "$1"); do
        local said serial end
        said=$(openssl x509 -in "$name" -noout -serial -enddate 2> /dev/null) || continue
        sed '/-----END/q' "$name" | sed '/-----/d' | base64 -d > "$room/certificate.der"
        serial=$(echo "$said" | sed -n 's/serial=//p' | tr A-F a-f)
        end=$(date -u -d "$(echo "$said" | sed -n 's/notAfter=//p')" "+%Y-%m-%dT%H:%M:%SZ")
        if "$room/certificate" < "$room/certificate.der" > "$room/fields" \
            && grep -qE "^serial: (00)?$serial$" "$room/fields" && grep -q "^not after: $end$" "$room/fields"; then
            read=$((read + 1))
        else
            wrong=$((wrong + 1))
            echo "$name"
        fi
    done
    echo "$read certificates as openssl reads them, $wrong not"
    [ "$wrong" = 0 ] && [ "$read" -gt 0 ]
}

run_hostile() {
    local inputs=$1
    octets "30 80 30 80 16 05 53 6d 69 74 68 01 01 ff 00 00 04 03 61 62 63 30 03 02 01 05 a0 80 05 00 00 00 31 80 06 03
        55 04 03 17 0d 39 32 30 35 32 31 30 30 30 30 30 30 5a 03 02 04 f0 0c 02 c3 a9 00 00 1e 02 00 41 00 00" \
        > "$room/ber"
    "$room/$2" "$room/ber" "$inputs" || return 1
    if [ -f "$room/certificate.der" ]; then "$room/$2" "$room/certificate.der" "$inputs" || return 1; fi
}

# A certificate, a list of revoked ones, a request that was signed before, a certificate of the machine's, one with
# many extensions, keys and a text in PEM, damaged.
run_damaged() {
    local file
    for file in ../crates/der/data/certificate.der ../crates/der/data/revoked.crl "$room/request" \
        "$room/extensions.pem" "$room/rsa.key" "$room/ec.key" "$room/certificate.der" "$room/extensions.der" \
        "$room/ec.sec1" "$room/rsa.pub" "$room/encrypted.key"; do
        if [ -f "$file" ]; then "$room/$2" "$file" "$1" || return 1; fi
    done
}

compile_target() {
    clang -std=c99 -Wall -Wextra -Werror -g -O1 -fsanitize=fuzzer,address,undefined -fno-sanitize-recover=all \
        -Ic/include -Ic/fuzz "$1" "$archive" -o "$2"
}

# The inputs that targets begin with, in a folder: files of the repository, and the octets of rows about certificates
# and messages.
make_seeds() {
    local number=0 row
    mkdir "$1" && cp ../crates/der/data/* "$1" || return
    for row in ber messages; do [ -f "$room/$row" ] && cp "$room/$row" "$1"; done
    while read -r row; do
        number=$((number + 1))
        octets "$row" > "$1/row.$number"
    done < <(grep -hoE '^([0-9a-f]{2} )+\|' ../tests/rows/data/{certificates,messages}/*.rows | tr -d '|' \
        | LC_ALL=C sort -u)
    [ "$number" -gt 0 ]
}

# As many runs of a target as take about ten seconds.
runs_of() {
    case $1 in
        writer) echo 200000 ;;
        fields) echo 600000 ;;
        keys | lists | values) echo 3000000 ;;
        *) echo 1200000 ;;
    esac
}

# Each target, all side by side. With the same seed, and the same addresses of memory, they try the same each time.
run_targets() {
    local file name pids=() wrong=0 fixed=()
    setarch -R true 2> /dev/null && fixed=(setarch -R)
    make_seeds "$room/seeds" || return
    for file in c/fuzz/*.c; do
        name=$(basename "$file" .c)
        compile_target "$file" "$room/target_$name" && cp -r "$room/seeds" "$room/corpus_$name" || return
    done
    for file in c/fuzz/*.c; do
        name=$(basename "$file" .c)
        (cd "$room" && "${fixed[@]}" "./target_$name" -seed=1 -runs="$(runs_of "$name")" -reload=0 -max_len=4096 \
            -artifact_prefix="$name." "corpus_$name") > "$room/target_$name.log" 2>&1 &
        pids+=($!)
    done
    for name in "${pids[@]}"; do wait "$name" || wrong=1; done
    for file in c/fuzz/*.c; do
        name=$(basename "$file" .c)
        grep -q "^Done" "$room/target_$name.log" || grep -A 12 ERROR "$room/target_$name.log" \
            || tail -n 3 "$room/target_$name.log"
        printf '%s %s, ' "$name" "$(sed -n 's/^Done \([0-9]*\) runs.*/\1/p' "$room/target_$name.log")"
    done
    echo "runs from the seed 1"
    return "$wrong"
}

if has cc "all of C"; then
    run_c
    if [ -n "$(find /usr/share/ca-certificates -name '*.crt' 2> /dev/null | head -n 1)" ]; then
        if has openssl "certificates"; then
            shown=yes
            says "certificates" run_certificates 100
            says "fields of certificates" run_openssl_fields 100
            says "times and names of certificates" run_found 100
            shown=
        fi
    else
        echo "left out: certificates (there are no ca-certificates)"
    fi
    echo 'int main(void) { return 0; }' > "$room/empty.c"
    if cc -fsanitize=address,undefined "$room/empty.c" -o "$room/empty" 2> /dev/null; then
        says "hostile.c compiles" compile hostile hostile -g -fsanitize=address,undefined -fno-sanitize-recover=all
        shown=yes
        says "damaged inputs" run_hostile 40000 hostile
        says "hostile_certificate.c compiles" \
            compile hostile_certificate damaged -g -fsanitize=address,undefined -fno-sanitize-recover=all
        says "damaged certificates" run_damaged 40000 damaged
        says "writer.c compiles" compile writer sanitized -g -fsanitize=address,undefined -fno-sanitize-recover=all
        says "writer under sanitizers" "$room/sanitized" "$room"
        shown=
    else
        echo "left out: damaged inputs and writer under sanitizers (cc has no -fsanitize=address,undefined)"
    fi
    # The sanitizers see the program, and valgrind each access of the library too.
    if has valgrind "damaged inputs under valgrind"; then
        says "hostile.c compiles" compile hostile plain -g
        shown=yes
        run_valgrind() { run_hostile 250 "checked"; }
        printf '#!/bin/sh\nexec valgrind -q --error-exitcode=9 "%s/plain" "$@"\n' "$room" > "$room/checked"
        chmod +x "$room/checked"
        says "damaged inputs under valgrind" run_valgrind
        says "hostile_certificate.c compiles" compile hostile_certificate plain -g
        run_valgrind_certificates() { run_damaged 250 "checked"; }
        says "damaged certificates under valgrind" run_valgrind_certificates
        says "writer.c compiles" compile writer plain_writer -g
        says "writer under valgrind" valgrind -q --error-exitcode=9 "$room/plain_writer" "$room"
        shown=
    fi
    echo '#include "fuzz.h"
int LLVMFuzzerTestOneInput(const uint8_t *input, size_t length) { return input == NULL && length > 0; }' \
        > "$room/empty.c"
    if compile_target "$room/empty.c" "$room/empty" 2> /dev/null; then
        shown=yes says "targets for libFuzzer" run_targets
    else
        echo "left out: targets for libFuzzer (there is no clang with -fsanitize=fuzzer)"
    fi
    says "the lines of README for C" run_readme_block
    says "the lines of callers/c/README" run_readme_of_c
    has openssl "the command of README for C" \
        && says "the command of README for C" run_readme_example cc
fi

# The numbers of errors in the header are those of the specification, where 0 is no error.
# (dm_found_text alone has the text of DM_ERROR_PEM_INPUT)
numbers_of_header() { sed -n '/PEM_INPUT/d; s/^ *DM_ERROR_.* = \([0-9]*\).*/\1/p' c/include/dumarewhi.h; }
numbers_of_errors() { sed -n 's/^[a-z]*_number [^:]* = \([0-9]*\)$/\1/p' "$numbers" | grep -vx 0; }
numbers=../crates/c_values/specs/ErrorNumbers.antt
run_numbers() { [ -n "$(numbers_of_errors)" ] && diff <(numbers_of_header | sort) <(numbers_of_errors | sort -u); }
says "the header has a name for each error" run_numbers

version_of_header() { sed -n 's/^#define DM_VERSION_[A-Z]* \([0-9]*\)$/\1/p' c/include/dumarewhi.h | paste -sd.; }
version_of_crate() { sed -n 's/^version = "\(.*\)"$/\1/p' rust/Cargo.toml; }
says "the header has the version of the crate" [ "$(version_of_header)" = "$(version_of_crate)" ]

has_lines() { [ -n "$1" ] && [[ $(< "$2") == *"$1"* ]]; }
says "the lines of README for Rattle are those of der_uses" has_lines "$(block rust 1)" ../crates/der_uses/src/shown.rt

if [ -d rust ]; then
    if has cargo "all of Rust"; then
        shown=yes
        run_cargo() { DUMAREWHI_LIB=$(dirname "$archive") CARGO_TARGET_DIR=$room/target cargo "$@" 2>&1; }
        says "cargo test" run_cargo test --offline --quiet --features pem --manifest-path rust/Cargo.toml
        says "cargo check without features" \
            run_cargo check --offline --quiet --no-default-features --manifest-path rust/Cargo.toml
        # A registry without packages, since that of crates.io needs a network
        run_publish() (
            mkdir "$room/index" && cd "$room/index" && git init --quiet \
                && echo '{"dl": "file:///", "api": "http://localhost"}' > config.json && git add config.json \
                && git -c user.name=test -c user.email=test commit --quiet --message index || return
            export CARGO_REGISTRIES_EMPTY_INDEX=file://$room/index CARGO_REGISTRIES_EMPTY_TOKEN=none
            cd "$root/callers/rust" && run_cargo publish --quiet --dry-run --allow-dirty --registry empty
        )
        has git "cargo publish --dry-run" && says "cargo publish --dry-run" run_publish
        says "cargo doc" env RUSTDOCFLAGS="-D warnings" DUMAREWHI_LIB="$(dirname "$archive")" \
            cargo doc --offline --quiet --no-deps --all-features --manifest-path rust/Cargo.toml \
            --target-dir "$room/target"
        checked=(--config 'target."cfg(all())".runner=["valgrind","-q","--error-exitcode=9"]')
        has valgrind "the writer of Rust under valgrind" && says "the writer of Rust under valgrind" \
            run_cargo test --offline --quiet --manifest-path rust/Cargo.toml --test writer "${checked[@]}"
        examples=$room/target/debug/examples
        says "SNMP that Rust answers" run_reply "$examples/snmp_reply"
        has openssl "a request of Rust" && says "a request of Rust that openssl verifies" run_csr "$examples/csr"
        if cargo clippy --version > /dev/null 2>&1; then
            run_clippy() {
                run_cargo clippy --offline --quiet --all-targets --all-features --manifest-path "$1" -- -D warnings
            }
            says "cargo clippy" run_clippy rust/Cargo.toml
        else
            echo "left out: cargo clippy (there is no clippy)"
        fi
        [ -f "$room/hostile.der" ] && prints_certificates "x509.rs" "$examples/x509"
        if [ -f "$room/seeds/certificate.der" ]; then
            run_rust_target() {
                rust/fuzz/seeds "$room/corpus_rust" && DUMAREWHI_LIB=$(dirname "$archive") \
                    CARGO_TARGET_DIR=$room/target_of_fuzz rust/fuzz/run "$room/corpus_rust" -seed=1 -runs=200000 \
                    -reload=0 "-artifact_prefix=$room/rust."
            }
            says "the target of Rust for libFuzzer" run_rust_target
        else
            echo "left out: the target of Rust for libFuzzer (there is no clang with -fsanitize=fuzzer)"
        fi
        has openssl "the command of README for Rust" && says "the command of README for Rust" run_readme_example cargo
        # A project of its own, with the command that rust/README.md gives, and the lines of README.
        if cargo add --help > /dev/null 2>&1; then
            add=$(sed -n 's|^\(cargo add .*\)$|\1|p' rust/README.md)
            run_project() (
                (cd "$room" && cargo new --quiet --vcs none project) || return
                {
                    echo 'fn main() -> Result<(), Box<dyn std::error::Error>> {'
                    echo 'let octets = std::fs::read(std::env::args().nth(1).ok_or("no file")?)?;'
                    block rust 2
                    echo 'for file in std::env::args().skip(1) { show(&std::fs::read(file)?)?; }'
                    echo 'Ok(()) }'
                    block rust 3 rust/README.md
                } > "$room/project/src/main.rs"
                # (five lines between the first and the last two)
                [ -n "$add" ] && [ "$(block rust 3 rust/README.md | wc -l)" -le 8 ] || return
                cd "$room/project" && CARGO_NET_OFFLINE=true sh -ec "${add//DUMAREWHI/$root} --features pem" || return
                pem_of "$root/crates/der/data/certificate.der" > pem
                run_cargo run --offline --quiet -- "$root/crates/der/data/certificate.der" pem > shown || return
                grep -q '^CN=.* until 2027-02-22T23:15:41Z$' shown && [ "$(grep -c '^DNS:example.org$' shown)" = 2 ]
            )
            says "a project of its own" run_project
        else
            echo "left out: a project of its own (cargo has no add)"
        fi
        registry=$(dpkg -L librust-der-parser-dev 2> /dev/null | sed -n 's|/der-parser-[^/]*/Cargo.toml$||p')
        if [ -n "$registry" ]; then
            run_peers() {
                cp -r peers "$room/peers" && mkdir "$room/peers/.cargo" && peers/inputs.sh "$room/inputs" || return
                sed -i "s|\.\./rust|$root/callers/rust|" "$room/peers/Cargo.toml"
                printf '[source.%s]\n%s = "%s"\n' crates-io replace-with packages packages directory "$registry" \
                    > "$room/peers/.cargo/config.toml"
                (cd "$room/peers" && run_cargo run --offline --quiet -- "$room/inputs")
            }
            says "der-parser beside it" run_peers
            sed -n '/^ *DER/,$p' "$room/log"
        else
            echo "left out: der-parser beside it (there is no package librust-der-parser-dev)"
        fi
        shown=
    fi
fi

# The page is compared with the same program, in page/test.
programs=()
for program in "$room/agreement" "$room/target/debug/examples/agreement"; do
    [ -x "$program" ] && programs+=("$program")
done
if [ "${#programs[@]}" -gt 0 ]; then
    shown=yes
    says "damaged inputs beside \`der check\`" ../tools/agreement.py 100000 "${programs[@]}"
    shown=
fi

shown=yes says "Python" env "DUMAREWHI_LIB=$(dirname "$archive")" python/test && grep "^left out" "$room/log"
echo "callers: $passed passed, $failed failed"
[ "$failed" = 0 ]
