#!/bin/sh
# Shows each certificate of this folder, as DER and as a text, by the program that is built in crates/asn1_certificate (`rt run` there
# builds it), and compares what it writes with the stored text. Then it has each written again, and compares the bytes. Last it has a
# certificate shown in whose name a UTF8String is no UTF-8, which the program is to refuse.
set -eu
cd "$(dirname "$0")"
program=${1:-../../crates/asn1_certificate/out/asn1_certificate}
for wanted in *.txt; do
    name=${wanted%.txt}
    for form in der pem; do
        "$program" < "$name.$form" | diff "$wanted" -
        "$program" --der < "$name.$form" | cmp "$name.der" -
    done
done
if { head -c 43 first-version.der; printf '\377'; tail -c +45 first-version.der; } | "$program" > /dev/null 2>&1; then
    echo "a string that is no UTF-8 is taken"
    exit 1
fi
echo "each is shown as it is stored, and written again byte for byte"
