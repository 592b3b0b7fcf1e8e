"""A control plane on loopback: its API, its controller managers, and kubelets that renew Leases and post statuses."""
import http.client, ssl, json, threading, time, subprocess, os, signal, datetime, sys

CTX = ssl._create_unverified_context()

def rfc(t, micro=False):
    d = datetime.datetime.utcfromtimestamp(t)
    return d.strftime('%Y-%m-%dT%H:%M:%S') + ('.%06d' % d.microsecond if micro else '') + 'Z'

class Api:
    def __init__(self, port, token):
        self.port, self.token, self.loc = port, token, threading.local()
    def req(self, method, path, body=None, ctype='application/json', timeout=10):
        for tries in (0, 1):
            c = getattr(self.loc, 'c', None)
            if c is None:
                c = self.loc.c = http.client.HTTPSConnection('127.0.0.1', self.port, context=CTX, timeout=timeout)
            try:
                h = {'Authorization': 'Bearer ' + self.token, 'Content-Type': ctype, 'Accept': 'application/json'}
                c.request(method, path, json.dumps(body) if body is not None else None, h)
                r = c.getresponse()
                d = r.read()
                return r.status, (json.loads(d) if d else None)
            except Exception:
                try: c.close()
                except Exception: pass
                self.loc.c = None
                if tries: raise

class Plane:
    def __init__(self, name, base):
        self.name, self.base, self.dir = name, base, os.path.abspath('run/' + name)
        self.admin = Api(base + 2, 'tok-admin'); self.kub = Api(base + 2, 'tok-kubelet')
        self.kcm = {}; self.kubelets = {}; self.log = None; self.n = 0
        self.kind = 'kcm'; self.binary = {}    # what is started: 'kcm' or 'elector'; binaries that some have of their own, by user
    def open(self, scen):
        self.out = 'logs/' + scen; os.makedirs(self.out, exist_ok=True)
        self.log = open(self.out + '/driver.jsonl', 'w'); self.audit_from = os.path.getsize(self.dir + '/audit.log') if os.path.exists(self.dir + '/audit.log') else 0
    def note(self, what, **k):
        t = k.pop('at', None) or time.time()
        self.log.write(json.dumps(dict(t=t, what=what, **k)) + '\n'); self.log.flush()
        print('%s %s %s' % (rfc(t, True), what, k), flush=True)
    # controller managers
    def start_kcm(self, u, *flags):
        port = self.base + 10 + 'abc'.index(u)
        d = self.dir; n = self.n; self.n += 1
        logf = open('%s/kcm-%s.%d.log' % (d, u, n), 'w')
        cmd = [os.path.abspath('bin/' + self.binary.get(u, {'kcm': 'kube-controller-manager'}.get(self.kind, self.kind))), '--kubeconfig=kc-%s.yaml' % u]
        if self.kind == 'kcm':
            cmd += ['--bind-address=127.0.0.1', '--secure-port=%d' % port, '--port=0', '--cert-dir=%s/certs-%s' % (d, u), '--controllers=nodelifecycle',
                    '--leader-elect=true', '--leader-elect-resource-lock=leases', '-v=4']
        cmd += list(flags)
        p = subprocess.Popen(cmd, cwd=d, stdout=logf, stderr=logf)
        self.kcm[u] = p; self.note('kcm-start', who=u, kind=self.kind, flags=list(flags)); return p
    def signal(self, u, sig):
        self.note('kcm-signal', who=u, sig=signal.Signals(sig).name); os.kill(self.kcm[u].pid, sig)
    def wait_exit(self, u, timeout=60):
        try: rc = self.kcm[u].wait(timeout); self.note('kcm-exit', who=u, rc=rc)
        except subprocess.TimeoutExpired: self.note('kcm-still-there', who=u)
    def lease(self):
        s, o = self.admin.req('GET', '/apis/coordination.k8s.io/v1/namespaces/kube-system/leases/kube-controller-manager')
        return o if s == 200 else None
    def holder_of(self):
        o = self.lease(); return o and o['spec'].get('holderIdentity')
    # which kcm holds, by its log
    def leader(self):
        h = self.holder_of()
        return h
    # nodes, pods
    def make_node(self, name, region, zone):
        body = {'apiVersion': 'v1', 'kind': 'Node', 'metadata': {'name': name, 'labels': {'kubernetes.io/hostname': name, 'topology.kubernetes.io/region': region, 'topology.kubernetes.io/zone': zone}}}
        return self.kub.req('POST', '/api/v1/nodes', body)
    def make_pod(self, name, node, tolerations, grace=0, ns='default'):
        body = {'apiVersion': 'v1', 'kind': 'Pod', 'metadata': {'name': name, 'namespace': ns},
                'spec': {'nodeName': node, 'terminationGracePeriodSeconds': grace, 'tolerations': tolerations, 'containers': [{'name': 'c', 'image': 'x'}]}}
        s, o = self.admin.req('POST', '/api/v1/namespaces/%s/pods' % ns, body)
        if s >= 300: print('POD', s, o)
        return s
    def ready_pod(self, name, ns='default'):
        now = rfc(time.time())
        conditions = [{'type': t, 'status': 'True', 'lastTransitionTime': now} for t in ('PodScheduled', 'Initialized', 'ContainersReady', 'Ready')]
        s, o = self.kub.req('PATCH', '/api/v1/namespaces/%s/pods/%s/status' % (ns, name), {'status': {'phase': 'Running', 'conditions': conditions}},
                            'application/strategic-merge-patch+json')
        if s >= 300: print('POD STATUS', s, o)
    def wipe(self):
        for path in ('/api/v1/namespaces/default/pods', '/api/v1/nodes', '/apis/coordination.k8s.io/v1/namespaces/kube-node-lease/leases'):
            s, o = self.admin.req('GET', path)
            for i in o['items']:
                self.admin.req('DELETE', path + '/' + i['metadata']['name'], {'gracePeriodSeconds': 0} if 'pods' in path else None)
        self.admin.req('DELETE', '/apis/coordination.k8s.io/v1/namespaces/kube-system/leases/kube-controller-manager')
    def save(self):
        time.sleep(1.5)
        import gzip
        keep = 0
        with open(self.dir + '/audit.log') as f, gzip.open(self.out + '/audit.jsonl.gz', 'wt') as g:
            f.seek(self.audit_from)
            for line in f:
                e = json.loads(line)
                r = e.get('objectRef', {}).get('resource')
                if r not in ('leases', 'nodes', 'pods', 'events'): continue
                for k in ('requestObject', 'responseObject'):
                    o = e.get(k)
                    if isinstance(o, dict):
                        o.get('metadata', {}).pop('managedFields', None) if isinstance(o.get('metadata'), dict) else None
                        for it in (o.get('items') or []): it.get('metadata', {}).pop('managedFields', None)
                g.write(json.dumps(e, separators=(',', ':')) + '\n'); keep += 1
        self.note('saved', lines=keep); self.log.close()

class Kubelet(threading.Thread):
    """status once at start and each 300 s (or when the stored Ready isn't ours), Lease each 10 s: as a kubelet does."""
    def __init__(self, plane, node, ready='True'):
        super().__init__(daemon=True); self.p, self.node, self.ready = plane, node, ready; self.halt = threading.Event(); self.last_status = 0
    def post_status(self):
        now = time.time(); s, n = self.p.kub.req('GET', '/api/v1/nodes/%s?resourceVersion=0' % self.node)
        old = next((c for c in (n.get('status', {}).get('conditions') or []) if c['type'] == 'Ready'), None)
        if old and old['status'] == self.ready and now - self.last_status < 300: return
        tr = old['lastTransitionTime'] if old and old['status'] == self.ready else rfc(now)
        body = {'status': {'conditions': [
            {'type': 'Ready', 'status': self.ready, 'reason': 'KubeletReady', 'message': 'x', 'lastHeartbeatTime': rfc(now), 'lastTransitionTime': tr}] +
            [{'type': t, 'status': 'False', 'reason': 'Ok', 'message': 'x', 'lastHeartbeatTime': rfc(now), 'lastTransitionTime': rfc(now)} for t in ('MemoryPressure', 'DiskPressure', 'PIDPressure')]}}
        s, o = self.p.kub.req('PATCH', '/api/v1/nodes/%s/status' % self.node, body, 'application/strategic-merge-patch+json')
        self.last_status = now
        if s >= 300: print('status', self.node, s, o)
    def renew(self):
        path = '/apis/coordination.k8s.io/v1/namespaces/kube-node-lease/leases'
        s, o = self.p.kub.req('GET', path + '/' + self.node)
        if s == 404:
            s, o = self.p.kub.req('POST', path, {'apiVersion': 'coordination.k8s.io/v1', 'kind': 'Lease', 'metadata': {'name': self.node},
                     'spec': {'holderIdentity': self.node, 'leaseDurationSeconds': 40, 'renewTime': rfc(time.time(), True)}})
        else:
            o['spec']['renewTime'] = rfc(time.time(), True)
            s, o = self.p.kub.req('PUT', path + '/' + self.node, o)
        if s >= 300: print('lease', self.node, s, o)
    def run(self):
        t = time.time(); self.p.note('kubelet-start', at=t, node=self.node)
        while not self.halt.is_set():
            try: self.post_status(); self.renew()
            except Exception as e: print('kubelet', self.node, e)
            t += 10; self.halt.wait(max(0, t - time.time()))
    def stop(self):
        self.halt.set(); self.p.note('kubelet-stop', node=self.node)

T = lambda secs: [{'key': 'node.kubernetes.io/not-ready', 'operator': 'Exists', 'effect': 'NoExecute', **({} if secs is None else {'tolerationSeconds': secs})},
                  {'key': 'node.kubernetes.io/unreachable', 'operator': 'Exists', 'effect': 'NoExecute', **({} if secs is None else {'tolerationSeconds': secs})}]
