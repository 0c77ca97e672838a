#!/bin/sh
# Collects real inputs, the same at each run:  inputs.sh FOLDER
# They are the certificates of the machine, and what openssl makes with a key and dates that don't change: a key, a
# request, a certificate, a list of revoked ones, a question for OCSP, and messages of CMS, one of indefinite length.
set -eu
mkdir -p "$1"
cd "$1"
find /usr/share/ca-certificates -name '*.crt' 2> /dev/null | LC_ALL=C sort | while read -r name; do
    sed '/-----/d' "$name" | base64 -d > "$(basename "$name" .crt).der"
done
if ! command -v openssl > /dev/null; then
    echo "left out: what openssl makes"
    exit 0
fi
room=$(mktemp -d)
trap 'status=$?; [ $status = 0 ] || cat "$room/log"; rm -rf "$room"' EXIT
# A private key of Ed25519 (RFC 8410): its signatures are the same at each run.
printf '\060\056\002\001\000\060\005\006\003\053\145\160\004\042\004\040%s' dumarewhi-dumarewhi-dumarewhi-32 > key.der
cat > "$room/authority" << 'END'
[ca]
default_ca = it
[it]
database = index
serial = serial
default_md = default
policy = any
new_certs_dir = .
[any]
commonName = supplied
organizationName = optional
countryName = optional
END
printf 'R\t20500101000000Z\t200102000000Z,keyCompromise\t1000\tunknown\t/CN=example.org\n' > "$room/revoked"
make() {
    : > index
    echo 1000 > serial
    echo hello > text
    openssl pkey -inform DER -in "$1/key.der" -out key
    openssl pkey -in key -pubout -outform DER -out "$1/public-key.der"
    openssl req -new -key key -subj /C=NZ/O=Dumarewhi/CN=example.org -out request \
        -addext subjectAltName=DNS:example.org,IP:192.0.2.1
    openssl req -in request -outform DER -out "$1/request.der"
    openssl ca -config authority -batch -selfsign -keyfile key -in request -notext -out certificate \
        -startdate 20200101000000Z -enddate 20500101000000Z
    openssl x509 -in certificate -outform DER -out "$1/certificate.der"
    cp revoked index
    openssl ca -config authority -keyfile key -cert certificate -gencrl -out list \
        -crl_lastupdate 20200102000000Z -crl_nextupdate 20500101000000Z
    openssl crl -in list -outform DER -out "$1/list.der"
    openssl ocsp -issuer certificate -cert certificate -no_nonce -reqout "$1/question.der"
    openssl crl2pkcs7 -in list -certfile certificate -outform DER -out "$1/certificates.der"
    openssl cms -data_create -in text -outform DER -out "$1/data.der"
    openssl cms -data_create -in text -stream -outform DER -out "$1/data-in-pieces.der"
}
folder=$(pwd)
cd "$room"
make "$folder" > log 2>&1
