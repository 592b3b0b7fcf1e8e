"""Plays scenarios on a plane that up.sh brought up: scenarios.py NAME PORT SCENARIO.. Run where run/NAME lies."""
import sys, time, signal, os, json, subprocess
sys.path.insert(0, os.path.dirname(os.path.abspath(__file__))); from plane import *
plane = Plane(sys.argv[1], int(sys.argv[2])); scens = sys.argv[3:]
NODES = [('n1', 'r1', 'za'), ('n2', 'r1', 'za'), ('n3', 'r1', 'za'), ('n4', 'r1', 'za'), ('n5', 'r1', 'zb'), ('n6', 'r1', 'zb')]
def setup(scen, tol=(0, 30, 300), flags=(), nodes=NODES, more=None):
    plane.open(scen); plane.wipe()
    for n in nodes: plane.make_node(*n)
    for n in nodes:
        plane.make_pod('%s-none' % n[0], n[0], []); plane.make_pod('%s-ever' % n[0], n[0], T(None))
        for s in tol: plane.make_pod('%s-s%d' % (n[0], s), n[0], T(s))
        plane.make_pod('%s-slow' % n[0], n[0], [], grace=30)
    if more: more()
    plane.base_t = time.time(); plane.note('base', at=plane.base_t, nodes=[n[0] for n in nodes])
    for k, n in enumerate(nodes):
        kl = Kubelet(plane, n[0]); plane.kubelets[n[0]] = kl; kl.start(); time.sleep(0.7)
    plane.flags = list(flags)
    plane.start_kcm('a', *flags); time.sleep(4); plane.start_kcm('b', *flags)
    wait_lead()
def holder_user():
    # by the audit log: who wrote the Lease last with success
    h = plane.holder_of()
    if not h: return None
    for u, p in plane.kcm.items():
        pass
    return h
ids = {}
def learn():
    # raw identity of each kcm, by the audit log's user
    with open(plane.dir + '/audit.log') as f:
        f.seek(plane.audit_from)
        for line in f:
            if '"kube-controller-manager"' in line and ('"verb":"update"' in line or '"verb":"create"' in line) and '"leases"' in line:
                e = json.loads(line); h = (e.get('requestObject') or {}).get('spec', {}).get('holderIdentity')
                if h and e['user']['username'].startswith('kcm-'): ids[h] = e['user']['username'][4:]
def leader():
    h = plane.holder_of(); 
    if h not in ids: time.sleep(0.5); learn()
    return ids.get(h)
def wait_lead(old=None, timeout=60):
    t = time.time()
    h0 = old
    while time.time() - t < timeout:
        h = plane.holder_of()
        if h and h != h0: l = leader(); plane.note('lead-seen', who=l, raw=h); return l
        time.sleep(0.1)
    plane.note('no-lead')
def at(s):  # sleep until s seconds after mark
    time.sleep(max(0, plane.mark + s - time.time()))
def kstop(*ns):
    for n in ns: plane.kubelets[n].stop()
def kstart(*ns):
    for n in ns: kl = Kubelet(plane, n); plane.kubelets[n] = kl; kl.start()
def finish():
    plane.note('end')
    for u, p in list(plane.kcm.items()):
        if p.poll() is None: p.kill(); p.wait()
    for k in plane.kubelets.values(): k.halt.set()
    for k in plane.kubelets.values(): k.join(12)
    plane.kubelets = {}; plane.save(); plane.kcm = {}; ids.clear()
def tainted(node):
    s, o = plane.admin.req('GET', '/api/v1/nodes/' + node)
    return any(t['effect'] == 'NoExecute' for t in o['spec'].get('taints') or [])
def s_a2(): s_a('a2')
def s_e2(): s_e('e2')
def s_a(name='a'):
    setup(name); plane.mark = time.time(); at(75); finish()
def s_b(n=5):
    setup('b'); plane.mark = time.time()
    import random
    for k in range(n):
        time.sleep(9 + random.random() * 3)
        l = leader(); h = plane.holder_of(); plane.signal(l, signal.SIGKILL); plane.wait_exit(l)
        wait_lead(h)
        time.sleep(1); plane.start_kcm(l, *plane.flags)
    time.sleep(8); finish()
def s_c(name='c', secs=20, stop_at=24):
    setup(name); plane.mark = time.time(); time.sleep(6); kstop('n1'); plane.mark = time.time()
    at(stop_at); l = leader(); h = plane.holder_of(); plane.signal(l, signal.SIGSTOP); at(stop_at + secs); plane.signal(l, signal.SIGCONT)
    plane.note('holder-at-cont', who=leader()); plane.wait_exit(l, 40); at(stop_at + secs + 60); finish()
def s_c2(): s_c('c2', 45, 10)
def s_c3(): s_c('c3', 25, 18)
def s_c4(): s_c('c4', 20, 20)
def s_c5(): s_c('c5', 20, 22)
def s_b2(n=12):
    setup('b2', flags=('--leader-elect-lease-duration=6s', '--leader-elect-renew-deadline=4s', '--leader-elect-retry-period=1s')); plane.mark = time.time()
    import random
    for k in range(n):
        time.sleep(3 + random.random() * 2)
        l = leader(); h = plane.holder_of(); plane.signal(l, signal.SIGKILL); plane.wait_exit(l)
        wait_lead(h)
        plane.start_kcm(l, *plane.flags); time.sleep(3)
    time.sleep(3); finish()
def s_h(name='h', lease=None):
    """the reply to one renewal of the leader is 9.5 s late, and all its later election calls are lost: kcm-a runs behind proxy.py"""
    d = plane.dir; ctl = d + '/proxy.json'; json.dump({}, open(ctl, 'w'))
    px = subprocess.Popen(['python3', os.path.join(os.path.dirname(os.path.abspath(__file__)), 'proxy.py'), str(plane.base + 5), str(plane.base + 2), d + '/certs', ctl])
    k = open(d + '/kc-a.yaml').read(); open(d + '/kc-a.yaml', 'w').write(k.replace(str(plane.base + 2), str(plane.base + 5))); time.sleep(1)
    try:
        setup(name, flags=() if lease is None else ('--leader-elect-lease-duration=%ds' % lease,)); plane.mark = plane.base_t
        at(20.4); kstop('n1'); at(44); plane.note('proxy', reply_delay_put=9.5, leader=leader()); json.dump({'reply_delay_put': 9.5}, open(ctl, 'w'))
        plane.wait_exit('a', 60); at(120); finish()
    finally:
        px.kill(); open(d + '/kc-a.yaml', 'w').write(k)
def s_h2(): s_h('h2', 23)
def s_c6():
    global setup
    old = setup
    setup = lambda scen, **k: old(scen, flags=('--leader-elect-lease-duration=23s',), **k)
    try: s_c('c6', 45, 10)
    finally: setup = old
def s_d3(): s_d2('d3')
def s_d2(name='d2'):
    """n1 posts Ready False, is tainted not-ready, then stops: the taints are swapped; a pod comes late to the tainted node. n2 posts False and True again"""
    setup(name, tol=(0, 30, 120)); plane.mark = plane.base_t
    def ready(n, v): plane.kubelets[n].ready = v; plane.note('kubelet-ready', node=n, status=v)
    at(25); ready('n1', 'False'); at(26); ready('n2', 'False'); at(55); kstop('n1'); ready('n2', 'True')
    at(75); plane.make_pod('n1-late30', 'n1', T(30)); plane.note('pod', name='n1-late30'); at(220); finish()
def s_d4():
    """a grace that is no multiple of the monitor period"""
    setup('d4', flags=('--node-monitor-grace-period=42s',)); plane.mark = time.time(); at(20); kstop('n1', 'n2'); at(105); finish()
def s_g():
    setup('g'); plane.mark = time.time(); time.sleep(10); l = leader(); h = plane.holder_of(); plane.signal(l, signal.SIGTERM); plane.wait_exit(l, 20)
    plane.note('lease-after-term', spec=plane.lease()['spec']); wait_lead(h); time.sleep(5); finish()
def s_d():
    setup('d'); plane.mark = time.time(); at(20); kstop('n1', 'n2'); at(150); kstart('n2'); at(410); kstart('n1'); at(440); finish()
def s_e(name='e'):
    setup(name, tol=(0, 30)); plane.mark = time.time(); at(20); kstop('n5', 'n6'); at(140); kstart('n5', 'n6')
    at(165); kstop('n1', 'n2', 'n3'); at(250); kstart('n1', 'n2', 'n3')
    at(275); kstop('n1', 'n2', 'n3', 'n4', 'n5', 'n6'); at(350); kstart('n5'); at(420); finish()
def s_f(name='f', after=20):
    setup(name, tol=(0, 30, 60, 120)); plane.mark = time.time(); at(15); kstop('n1')
    while not tainted('n1'): time.sleep(0.2)
    plane.note('taint-seen'); time.sleep(after); l = leader(); h = plane.holder_of(); plane.signal(l, signal.SIGKILL); plane.wait_exit(l); wait_lead(h)
    plane.mark = time.time(); at(150); finish()
def s_f2(): s_f('f2', 0.0)
# ---- many pods on n1, all Ready; an API server that stands still; a kubelet that flaps
def many(counts):
    """Puts so many pods on n1 that tolerate so many seconds, None for no toleration."""
    from concurrent.futures import ThreadPoolExecutor
    wanted = [secs for secs, number in counts for _ in range(number)]
    def one(k):
        name = 'n1-m%03d-%s' % (k, 'none' if wanted[k] is None else 's%d' % wanted[k])
        plane.make_pod(name, 'n1', [] if wanted[k] is None else T(wanted[k])); plane.ready_pod(name)
    with ThreadPoolExecutor(6) as pool: list(pool.map(one, range(len(wanted))))
def left():
    s, o = plane.admin.req('GET', '/api/v1/namespaces/default/pods?fieldSelector=spec.nodeName%3Dn1')
    return sum(i['metadata']['name'].startswith('n1-m') and not i['metadata'].get('deletionTimestamp') for i in o['items'])
def wait_taint():
    while not tainted('n1'): time.sleep(0.2)
    plane.note('taint-seen')
def wait_gone(timeout=240):
    t = time.time()
    while time.time() - t < timeout and left(): time.sleep(1)
    plane.note('gone')
def s_n1():
    """500 pods without tolerations"""
    setup('n1', tol=(), more=lambda: many([(None, 500)])); plane.mark = time.time(); at(12); kstop('n1'); wait_taint(); wait_gone(); time.sleep(3); finish()
def s_n3():
    """200 pods with 20, 40 and 60 s; the leader is killed 5 s after the taint"""
    setup('n3', tol=(), more=lambda: many([(20, 67), (40, 67), (60, 66)])); plane.mark = time.time(); at(12); kstop('n1'); wait_taint(); time.sleep(5)
    l = leader(); h = plane.holder_of(); plane.signal(l, signal.SIGKILL); plane.wait_exit(l); wait_lead(h); wait_gone(); time.sleep(3); finish()
def s_n5():
    """the API server is stopped for 12 s, twice; whoever ended meanwhile is started again"""
    setup('n5', tol=(0, 30)); plane.mark = time.time(); pid = int(open(plane.dir + '/apiserver.pid').read())
    for t in (20, 75):
        for wait, sig in ((t, signal.SIGSTOP), (t + 12, signal.SIGCONT)):
            at(wait); plane.note('apiserver', sig=sig.name); os.kill(pid, sig)
        at(t + 20); gone = [u for u, p in plane.kcm.items() if p.poll() is not None]
        for u in gone: plane.note('kcm-exit', who=u, rc=plane.kcm[u].returncode)
        at(t + 32)
        for u in gone: plane.start_kcm(u, *plane.flags)
    at(135); finish()
def s_n7():
    """n1 renews for 20 s and is silent for 50 s, thrice"""
    setup('n7', tol=(0, 10, 30)); plane.mark = time.time()
    for k in range(3): at(20 + 70 * k); kstop('n1'); at(70 + 70 * k); kstart('n1')
    at(240); finish()
def play(found):
    try:
        for s in scens: found['s_' + s]()
    finally:
        for p in plane.kcm.values():
            if p.poll() is None: p.kill()
if __name__ == '__main__': play(globals())
