#!/bin/sh
# Makes the certificates of a fleet: of an authority of its own, of its broker, and of each robot, whose common name is its number. What is there
# already stays, so that more robots may follow. It needs Debian's openssl.
usage='Usage: certificates.sh FOLDER BROKER ROBOTS [DAYS]

BROKER is the name or the address by which robots reach it, ROBOTS how many there are, DAYS how long the certificates hold (3650).
FOLDER has then: ca.key, which stays with you; ca.pem for all; broker.key and broker.pem; and N.key and N.pem for robot N.'

bad() { printf '%s\n' "certificates.sh: $1" >&2; exit "$2"; }
case ${1:-} in -h | --help) printf '%s\n' "$usage"; exit 0 ;; esac
if [ $# -lt 3 ] || [ $# -gt 4 ]; then bad "$usage" 2; fi
folder=$1 broker=$2 robots=$3 days=${4:-3650}
for number in "$robots" "$days"; do
    case $number in '' | *[!0-9]* | ??????*) bad "'$number' is no number" 2 ;; esac
done
case $broker in
'' | *[!0-9A-Za-z.:-]*) bad "'$broker' is no name and no address" 2 ;;
*:* | *.*.*.*[0-9]) name=IP:$broker ;;
*) name=DNS:$broker ;;
esac
command -v openssl >/dev/null 2>&1 || bad "there is no openssl here" 3

# Nobody else may read keys, from their beginning on.
umask 077
mkdir -p -- "$folder" && cd -- "$folder" || exit 3

quietly() { "$@" 2>openssl.log || { cat openssl.log >&2; bad "openssl has failed: ${folder}" 3; }; }
new_key() { quietly openssl genpkey -algorithm EC -pkeyopt ec_paramgen_curve:P-256 -out "$1.key.new" && mv -- "$1.key.new" "$1.key"; }

# The certificate of a name, with what it may be used for.
certify() {
    [ ! -e "$1.pem" ] || return 0
    [ -e "$1.key" ] || new_key "$1"
    printf 'basicConstraints=critical,CA:FALSE\nkeyUsage=critical,digitalSignature\nauthorityKeyIdentifier=keyid\n%s\n' "$2" >extensions
    quietly openssl req -new -key "$1.key" -subj "/CN=$1" -out request
    quietly openssl x509 -req -in request -CA ca.pem -CAkey ca.key -set_serial "0x$(openssl rand -hex 16)" -days "$days" \
        -sha256 -extfile extensions -out "$1.pem.new"
    mv -- "$1.pem.new" "$1.pem"
}

if [ ! -e ca.pem ]; then
    [ -e ca.key ] || new_key ca
    quietly openssl req -x509 -new -key ca.key -sha256 -days "$days" -subj "/CN=authority of a fleet" -out ca.pem.new \
        -addext basicConstraints=critical,CA:TRUE -addext keyUsage=critical,keyCertSign,cRLSign
    mv -- ca.pem.new ca.pem
fi
certify broker "extendedKeyUsage=serverAuth
subjectAltName=$name"
robot=0
while [ "$robot" -lt "$robots" ]; do
    certify "$robot" 'extendedKeyUsage=clientAuth'
    robot=$((robot + 1))
done
rm -f -- extensions request openssl.log
