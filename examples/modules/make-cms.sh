#!/bin/sh
# Makes cms.der.txt anew, with OpenSSL 3: keys and certificates are made for the run and thrown away.
set -eu
here=$(cd "$(dirname "$0")" && pwd)
work=$(mktemp -d)
trap 'rm -rf "$work"' EXIT
cd "$work"
printf 'Hello' > hello.txt

# Two holders of certificates, one with a key on a curve and one with a key of RSA, and a list of revoked certificates.
quiet() { "$@" 2> log || { cat log; exit 1; }; }
quiet openssl req -x509 -newkey ec -pkeyopt ec_paramgen_curve:P-256 -nodes -subj /CN=Ann -days 365 -keyout ann.key -out ann.pem
quiet openssl req -x509 -newkey rsa:1024 -nodes -subj /CN=Bob -days 365 -keyout bob.key -out bob.pem
touch index.txt
cat > ca.cnf <<CNF
[ca]
default_ca = list
[list]
database = index.txt
default_md = sha256
default_crl_days = 30
crl_extensions = numbered
crlnumber = number
[numbered]
authorityKeyIdentifier = keyid
CNF
echo 01 > number
quiet openssl ca -config ca.cnf -cert ann.pem -keyfile ann.key -revoke bob.pem -crl_reason superseded
quiet openssl ca -config ca.cnf -cert ann.pem -keyfile ann.key -gencrl -out ann.crl

# line TYPE FILE: a line with a type and the octets of a file.
line() {
    printf '%s ' "$1"
    od -A n -v -t x1 "$2" | tr -d ' \n'
    echo
}

# whole COMMAND..: a message that a command makes, as a ContentInfo.
whole() {
    echo "# $*"
    "$@" > message.der
    line ContentInfo message.der
}

# content TYPE COMMAND..: the content of a message that a command makes.
content() {
    type=$1
    shift
    echo "# $*"
    "$@" > message.der
    at=$(openssl asn1parse -inform DER -in message.der | sed -n '/:d=1 .*cont \[ 0 \]/ { n; s/^ *\([0-9]*\):.*/\1/p; q }')
    openssl asn1parse -inform DER -in message.der -strparse "$at" -noout -out content.der
    line "$type" content.der
}

key=000102030405060708090a0b0c0d0e0f

{
    echo "# Values of the types of cms.asn1 in DER, by $(openssl version | cut -d " " -f 1-2): a type and its octets, below the"
    echo "# command that made the message (make-cms.sh). A ContentInfo is a whole message, another type that of its content."
    echo
    whole openssl cms -data_create -in hello.txt -outform DER
    whole openssl cms -sign -in hello.txt -signer ann.pem -inkey ann.key -nodetach -nosmimecap -outform DER
    content SignedData openssl cms -sign -in hello.txt -signer ann.pem -inkey ann.key -nodetach -nosmimecap -outform DER
    content SignedData openssl cms -sign -in hello.txt -signer bob.pem -inkey bob.key -keyid -nocerts -noattr -outform DER
    content SignedData openssl cms -sign -in hello.txt -signer ann.pem -inkey ann.key -signer bob.pem -inkey bob.key -nocerts \
        -outform DER
    content SignedData openssl crl2pkcs7 -in ann.crl -certfile ann.pem -outform DER
    content DigestedData openssl cms -digest_create -in hello.txt -md sha256 -outform DER
    content EncryptedData openssl cms -EncryptedData_encrypt -in hello.txt -aes128 -secretkey $key -outform DER
    content EnvelopedData openssl cms -encrypt -in hello.txt -aes128 -recip bob.pem -outform DER
    content EnvelopedData openssl cms -encrypt -in hello.txt -aes128 -recip ann.pem -outform DER
    content EnvelopedData openssl cms -encrypt -in hello.txt -aes128 -recip ann.pem -recip bob.pem -keyid -outform DER
    content EnvelopedData openssl cms -encrypt -in hello.txt -aes128 -secretkey $key -secretkeyid 0102 -outform DER
    content EnvelopedData openssl cms -encrypt -in hello.txt -aes128 -pwri_password secret -outform DER
    content EnvelopedData openssl cms -encrypt -in hello.txt -aes128 -secretkey $key -secretkeyid 0102 -pwri_password secret \
        -recip ann.pem -outform DER
    echo "# openssl crl -in ann.crl -outform DER"
    openssl crl -in ann.crl -outform DER > message.der
    line CertificateList message.der
} > "$here/cms.der.txt"
