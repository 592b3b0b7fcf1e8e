#!/bin/bash
# Brings up one control plane on loopback: up.sh NAME PORT. PORT is etcd's, PORT+1 its peers', PORT+2 that of the API server.
# Run it in a folder with bin/kube-apiserver and bin/kube-controller-manager; etcd is on the path, and keeps its data in memory.
set -eu
name=$1; base=$2
top=$PWD; here=$(cd "$(dirname "$0")" && pwd)
d=$top/run/$name; mkdir -p "$d"; cd "$d"
[ -f sa.key ] || { openssl genrsa -out sa.key 2048 2>/dev/null; openssl rsa -in sa.key -pubout -out sa.pub 2>/dev/null; }
cat > tokens.csv <<T
tok-admin,admin,1,"system:masters"
tok-a,kcm-a,2,"system:masters"
tok-b,kcm-b,3,"system:masters"
tok-c,kcm-c,4,"system:masters"
tok-kubelet,system:node:all,5,"system:masters"
T
for u in a b c; do cat > kc-$u.yaml <<T
apiVersion: v1
kind: Config
clusters: [{name: c, cluster: {server: "https://127.0.0.1:$((base+2))", insecure-skip-tls-verify: true}}]
users: [{name: u, user: {token: tok-$u}}]
contexts: [{name: x, context: {cluster: c, user: u}}]
current-context: x
T
done
etcd --name plane --data-dir /dev/shm/plane-$name --listen-client-urls http://127.0.0.1:$base --advertise-client-urls http://127.0.0.1:$base --listen-peer-urls http://127.0.0.1:$((base+1)) --initial-advertise-peer-urls http://127.0.0.1:$((base+1)) --initial-cluster plane=http://127.0.0.1:$((base+1)) >etcd.log 2>&1 &
echo $! > etcd.pid
sleep 2
"$top/bin/kube-apiserver" --etcd-servers=http://127.0.0.1:$base --bind-address=127.0.0.1 --advertise-address=127.0.0.1 --secure-port=$((base+2)) --insecure-port=0 --cert-dir=$d/certs \
 --token-auth-file=tokens.csv --authorization-mode=AlwaysAllow --anonymous-auth=false \
 --service-account-key-file=sa.pub --service-account-signing-key-file=sa.key --service-account-issuer=https://plane.local --api-audiences=plane \
 --disable-admission-plugins=ServiceAccount,DefaultTolerationSeconds --service-cluster-ip-range=10.96.0.0/16 --endpoint-reconciler-type=none \
 --audit-policy-file="$here/audit-policy.yaml" --audit-log-path=$d/audit.log --audit-log-format=json --audit-log-mode=batch --audit-log-batch-max-wait=200ms --audit-log-maxsize=1000 -v=1 >apiserver.log 2>&1 &
echo $! > apiserver.pid
for i in $(seq 120); do curl -sk -H 'Authorization: Bearer tok-admin' https://127.0.0.1:$((base+2))/readyz 2>/dev/null | grep -q '^ok' && break; sleep 0.5; done
echo up $name $(date +%T)
