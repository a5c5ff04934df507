#!/bin/sh
# Makes status.der.txt anew, with OpenSSL 3: keys and certificates are made for the run and thrown away.
set -eu
here=$(cd "$(dirname "$0")" && pwd)
work=$(mktemp -d)
trap 'rm -rf "$work"' EXIT
cd "$work"
printf 'Hello' > hello.txt

# An issuer of certificates, one that is good, one that is revoked, and one of an authority of time stamps.
quiet() { "$@" 2> log > told || { cat log; exit 1; }; }
printf '[req]\ndistinguished_name = name\n[name]\n[stamps]\nextendedKeyUsage = critical, timeStamping\n' > req.cnf
quiet openssl req -config req.cnf -x509 -newkey ec -pkeyopt ec_paramgen_curve:P-256 -nodes -subj /CN=Issuer -days 365 \
    -keyout issuer.key -out issuer.pem
# certificate NAME SERIAL [OPTION..]
certificate() {
    name=$1
    serial=$2
    shift 2
    quiet openssl req -config req.cnf -new -newkey ec -pkeyopt ec_paramgen_curve:P-256 -nodes -subj "/CN=$name" \
        -keyout "$name.key" -out "$name.csr"
    quiet openssl x509 -req -in "$name.csr" -CA issuer.pem -CAkey issuer.key -set_serial "$serial" -days 365 -out "$name.pem" "$@"
}
certificate ann 1
certificate bob 2
certificate clock 3 -extfile req.cnf -extensions stamps
certificate eve 4
printf 'V\t491231000000Z\t\t01\tunknown\t/CN=ann\nR\t491231000000Z\t260101000000Z,superseded\t02\tunknown\t/CN=bob\n' > index.txt

cat > tsa.cnf <<CNF
[tsa]
default_tsa = clock
[clock]
serial = number
signer_digest = sha256
default_policy = 1.2.3.4
digests = sha256
accuracy = secs:1, millisecs:500, microsecs:100
ordering = yes
tsa_name = yes
ess_cert_id_alg = sha256
CNF
echo 01 > number

# line TYPE FILE: a line with a type and the octets of a file.
line() {
    printf '%s ' "$1"
    od -A n -v -t x1 "$2" | tr -d ' \n'
    echo
}

# made TYPE FILE COMMAND..: a message that a command writes to a file.
made() {
    type=$1
    file=$2
    shift 2
    echo "# $*"
    quiet "$@"
    line "$type" "$file"
}

# within TYPE FILE DEPTH: the value of a type in the first OCTET STRING of this depth in a file.
within() {
    at=$(openssl asn1parse -inform DER -in "$2" | sed -n "s/^ *\([0-9]*\):d=$3 .*OCTET STRING.*/\1/p" | head -n 1)
    openssl asn1parse -inform DER -in "$2" -strparse "$at" -noout -out content.der
    echo "# openssl asn1parse -inform DER -in $2 -strparse $at"
    line "$1" content.der
}

ask="openssl ocsp -issuer issuer.pem -no_nonce"
answer="openssl ocsp -index index.txt -CA issuer.pem -rsigner issuer.pem -rkey issuer.key"

{
    echo "# Values of the types of status.asn1 in DER, by $(openssl version | cut -d " " -f 1-2): a type and its octets, below the"
    echo "# command that made the message, or took the value out of the one above it (make-status.sh)."
    echo
    made OcspRequest one.der $ask -cert ann.pem -reqout one.der
    made OcspRequest all.der $ask -cert ann.pem -cert bob.pem -cert eve.pem -reqout all.der
    made OcspRequest signed.der openssl ocsp -issuer issuer.pem -cert ann.pem -signer ann.pem -signkey ann.key -reqout signed.der
    made OcspResponse answer.der $answer -reqin all.der -respout answer.der -ndays 7
    within BasicOcspResponse answer.der 3
    made OcspResponse key.der $answer -reqin signed.der -respout key.der -resp_key_id -resp_no_certs
    within BasicOcspResponse key.der 3
    made TimeStampReq plain.tsq openssl ts -query -data hello.txt -sha256 -no_nonce -out plain.tsq
    made TimeStampReq hello.tsq openssl ts -query -data hello.txt -sha256 -tspolicy 1.2.3.4 -cert -out hello.tsq
    made TimeStampResp hello.tsr openssl ts -reply -config tsa.cnf -queryfile hello.tsq -signer clock.pem -inkey clock.key -out hello.tsr
    within TstInfo hello.tsr 6
    made TimeStampReq other.tsq openssl ts -query -data hello.txt -sha512 -out other.tsq
    made TimeStampResp other.tsr openssl ts -reply -config tsa.cnf -queryfile other.tsq -signer clock.pem -inkey clock.key -out other.tsr
} > "$here/status.der.txt"
