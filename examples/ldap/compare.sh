#!/bin/sh
# Shows each conversation of this folder by the program that is built in crates/asn1_ldap_show (`rt run` there builds it), and compares
# what it writes with the stored text. The program has to end with 0, since it understands each message.
set -eu
cd "$(dirname "$0")"
program=${1:-../../crates/asn1_ldap_show/out/asn1_ldap_show}
shown=$(mktemp)
trap 'rm -f "$shown"' EXIT
for wanted in *.txt; do
    "$program" "${wanted%.txt}.ber" > "$shown"
    diff "$wanted" "$shown"
done
echo "each conversation is shown as it is stored"
