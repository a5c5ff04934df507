#!/bin/sh
# make.sh: stores conversations of OpenLDAP's client and server (Debian's slapd and ldap-utils) beside this script.
set -e
here=$(cd "$(dirname "$0")" && pwd)
home=$(mktemp -d)
port=3389
base=dc=example,dc=org
mkdir "$home/db"
cat > "$home/slapd.conf" <<END
include /etc/ldap/schema/core.schema
include /etc/ldap/schema/cosine.schema
include /etc/ldap/schema/inetorgperson.schema
pidfile $home/pid
modulepath /usr/lib/ldap
moduleload back_mdb
database mdb
suffix "$base"
rootdn "cn=admin,$base"
rootpw secret
directory $home/db
END
/usr/sbin/slapadd -f "$home/slapd.conf" -l "$here/entries.ldif" 2> /dev/null
/usr/sbin/slapd -f "$home/slapd.conf" -h "ldap://127.0.0.1:$port"
sleep 1
cd "$here"
capture() { name=$1; shift; python3 capture.py $port "$name" "$@"; }
admin="-x -H URI -D cn=admin,$base -w secret"

# a bind, a search with an AND of filters, and an unbind
capture search ldapsearch $admin -b "$base" '(&(objectClass=person)(cn=A*))' cn mail
# a filter of each kind, limits, and a page at a time (RFC 2696)
capture filters ldapsearch -x -H URI -b "$base" -s one -a always -z 10 -l 5 -A -E '!pr=2/noprompt' \
  '(|(!(cn>=B))(cn:caseExactMatch:=Al \28Sales\29)(ou:dn:=people)(sn<=Z)(sn~=miler)(mail=*)(mail=a*@*.org))' '*' +
# a reference to another server, and a referral
capture references ldapsearch -x -H URI -b "$base" -LLL '(ou=else*)' ou
capture referral ldapsearch -x -H URI -b "cn=Eve,ou=elsewhere,$base" -s base
# changes of an entry, and its end
capture modify ldapmodify $admin -e '!manageDSAit' <<END
dn: cn=Bob,ou=people,$base
changetype: modify
replace: mail
mail: bob@example.com
-
add: description
description: tab	and * and "quotes"
-
delete: sn
sn: Baker
-
add: sn
sn: Barker
END
capture add ldapadd $admin <<END
dn: cn=Carol,ou=people,$base
objectClass: inetOrgPerson
cn: Carol
sn: Clark
END
capture rename ldapmodrdn $admin -r -s "$base" "cn=Carol,ou=people,$base" "cn=Caroline"
capture compare ldapcompare $admin "cn=Caroline,$base" sn:Clark
capture delete ldapdelete $admin "cn=Caroline,$base"
capture whoami ldapwhoami $admin
# errors: a wrong password, and a name of no entry
capture password ldapwhoami -x -H URI -D "cn=admin,$base" -w guess || true
capture nobody ldapsearch -x -H URI -b "cn=Nobody,ou=people,$base" || true
# an entry with all its attributes, some of several values
capture entry ldapsearch $admin -b "cn=Bob,ou=people,$base" -s base '*' +

kill "$(cat "$home/pid")"
sleep 1
rm -r "$home"
