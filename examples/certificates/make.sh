#!/bin/sh
# Makes the certificates of this folder anew, with OpenSSL 3: their keys are made for the run and thrown away.
set -eu
here=$(cd "$(dirname "$0")" && pwd)
work=$(mktemp -d)
trap 'rm -rf "$work"' EXIT
cd "$work"
touch index.txt
cp "$here/certificates.cnf" openssl.cnf

# Keys of each kind.
openssl genpkey -quiet -algorithm RSA -pkeyopt rsa_keygen_bits:2048 -out root-rsa.key
openssl genpkey -quiet -algorithm EC -pkeyopt ec_paramgen_curve:P-256 -out leaf-ec.key
openssl genpkey -quiet -algorithm ED25519 -out names-ed25519.key
openssl genpkey -quiet -algorithm EC -pkeyopt ec_paramgen_curve:P-384 -out first-version.key

# sign NAME SUBJECT SECTION SERIAL FROM TO ARGUMENTS..: a certificate of the key NAME.key.
sign() {
    name=$1 subject=$2 section=$3 serial=$4 from=$5 to=$6
    shift 6
    echo "$serial" > serial
    openssl req -new -utf8 -config openssl.cnf -key "$name.key" -subj "$subject" -out "$name.csr"
    openssl ca -batch -notext -utf8 -preserveDN -config openssl.cnf -extensions "$section" -in "$name.csr" \
        -startdate "$from" -enddate "$to" -out "$name.pem" "$@" 2> "$name.log" || { cat "$name.log"; exit 1; }
    openssl x509 -in "$name.pem" -outform DER -out "$here/$name.der"
    openssl x509 -in "$name.pem" -out "$here/$name.pem"
}

sign root-rsa "/C=DE/O=Example Trust/CN=Example Root" root 01 20250101000000Z 20350101000000Z \
    -selfsign -keyfile root-rsa.key
sign leaf-ec "/C=DE/ST=Bayern/O=Example, Inc./CN=www.example.org" leaf 0123456789ABCDEF 20250601120000Z 20260601120000Z \
    -cert root-rsa.pem -keyfile root-rsa.key
sign names-ed25519 "/DC=org/DC=example/OU=Käse+CN=Zoë" names 7F 20250101000000Z 20520101000000Z \
    -selfsign -keyfile names-ed25519.key -md default
sign first-version "/CN=First Version" none 00FFEEDDCCBBAA99 20250101000000Z 20300101000000Z \
    -selfsign -keyfile first-version.key -md sha384
