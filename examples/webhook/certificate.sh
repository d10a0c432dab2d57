#!/bin/sh
# Makes an authority, and a certificate of it for the webhook's name inside the cluster:
#
#     sh examples/webhook/certificate.sh DIR [NAME.NAMESPACE.svc]
#
# writes DIR/ca.pem, DIR/tls.crt and DIR/tls.key, good for a year, and none that stands there already. The authority's key isn't kept,
# so that nothing else is signed by it. The name is kubeconv-webhook.default.svc unless it is given.
set -eu
umask 077
to=${1:?"certificate.sh DIR [NAME.NAMESPACE.svc]"}
name=${2:-kubeconv-webhook.default.svc}
mkdir -p "$to"
for file in ca.pem tls.crt tls.key; do
    if [ -e "$to/$file" ]; then
        echo "certificate.sh: $to/$file stands already" >&2
        exit 1
    fi
done
work=$(mktemp -d "$to/making.XXXXXX")
trap 'rm -rf "$work"' EXIT
openssl req -x509 -newkey ec -pkeyopt ec_paramgen_curve:prime256v1 -nodes -days 365 -subj "/CN=$name authority" \
    -addext "basicConstraints=critical,CA:TRUE" -addext "keyUsage=critical,keyCertSign" \
    -keyout "$work/ca.key" -out "$work/ca.pem" 2>"$work/said" || { cat "$work/said" >&2; exit 1; }
openssl req -new -newkey ec -pkeyopt ec_paramgen_curve:prime256v1 -nodes -subj "/CN=webhook" \
    -keyout "$work/tls.key" -out "$work/tls.csr" 2>"$work/said" || { cat "$work/said" >&2; exit 1; }
cat >"$work/names" <<END
subjectAltName=DNS:$name,DNS:$name.cluster.local
basicConstraints=critical,CA:FALSE
keyUsage=critical,digitalSignature
extendedKeyUsage=serverAuth
END
openssl x509 -req -days 365 -in "$work/tls.csr" -CA "$work/ca.pem" -CAkey "$work/ca.key" -set_serial "0x$(openssl rand -hex 16)" \
    -extfile "$work/names" -out "$work/tls.crt" 2>"$work/said" || { cat "$work/said" >&2; exit 1; }
chmod 644 "$work/ca.pem" "$work/tls.crt"
mv "$work/ca.pem" "$work/tls.crt" "$work/tls.key" "$to"
