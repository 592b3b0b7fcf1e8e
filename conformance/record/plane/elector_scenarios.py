"""Plays scenarios of electors on a plane that up.sh brought up: elector_scenarios.py NAME PORT SCENARIO.. Run where run/NAME and bin/elector lie."""
import contextlib, json, os, random, shutil, signal, subprocess, sys, time
sys.path.insert(0, os.path.dirname(os.path.abspath(__file__)))
from scenarios import NODES, at, finish, kstart, leader, plane, play, wait_lead

HERE = os.path.dirname(os.path.abspath(__file__))
RELEASE = ('--handle-sigterm=true', '--release-on-cancel=true')

def begin(name, flags=(), who='ab', own=None, node=True):
    """Electors start 3 s apart; `own` has the flags of one that has others."""
    plane.kind = 'elector'; plane.open(name); plane.wipe(); plane.flags, plane.own = list(flags), own or {}
    if node: plane.make_node(*NODES[0])
    plane.base_t = time.time(); plane.note('base', at=plane.base_t, nodes=['n1'] if node else [])
    if node: kstart('n1')
    for u in who:
        if u != who[0]: time.sleep(3)
        start(u)
    wait_lead(); plane.mark = time.time()

def start(u): plane.start_kcm(u, *plane.own.get(u, plane.flags))

def end_leader(sig, again=1.0):
    """Signals the leader, waits for the next one, and starts another in its place."""
    l, h = leader(), plane.holder_of()
    plane.signal(l, sig); plane.wait_exit(l, 20)
    wait_lead(h); time.sleep(again); start(l)

def kills(number, low=9, high=12):
    for _ in range(number): time.sleep(random.uniform(low, high)); end_leader(signal.SIGKILL)
    time.sleep(8); finish()

def spec(): return plane.lease()['spec']

def renewal():
    """Waits for the next write of the Lease."""
    before = spec()['renewTime']
    while spec()['renewTime'] == before: time.sleep(0.02)

def watch(seconds, each=lambda holder: None):
    """Notes who holds the Lease, as that changes."""
    last, until = None, time.time() + seconds
    while time.time() < until:
        s = spec(); now = s.get('holderIdentity'), s.get('leaseTransitions')
        if now != last: plane.note('holder', raw=now[0], transitions=now[1]); last = now
        each(now[0]); time.sleep(0.03)

def freeze(name, seconds, flags=()):
    begin(name, flags); at(10); l = leader(); plane.signal(l, signal.SIGSTOP); at(10 + seconds)
    plane.note('holder-at-cont', who=leader()); plane.signal(l, signal.SIGCONT); plane.wait_exit(l, 30); at(50 + seconds); finish()

def frozen_then_ended(name, rounds, who):
    """The leader is frozen until another leads, and then asked to end and thawed: its release meets the other's Lease."""
    begin(name, RELEASE, who)
    for k in range(rounds):
        time.sleep(8 + k); l, h = leader(), plane.holder_of(); plane.signal(l, signal.SIGSTOP); wait_lead(h); time.sleep(3.3 + k)
        if len(who) > 2: renewal()      # so that the third one has nearly two seconds before the holder's next renewal
        plane.note('lease-before', spec=spec())
        for sig in (signal.SIGTERM, signal.SIGCONT): plane.signal(l, sig)
        plane.wait_exit(l, 20); plane.note('lease-after', spec=spec()); watch(16); start(l)
    time.sleep(8); finish()

@contextlib.contextmanager
def proxied(user='a'):
    """That elector's calls go through proxy.py; gives what sets the proxy's control."""
    control, config = plane.dir + '/proxy.json', '%s/kc-%s.yaml' % (plane.dir, user)
    def set_control(it):
        with open(control + '.new', 'w') as f: json.dump(it, f)
        os.replace(control + '.new', control)
    set_control({}); open(control + '.log', 'w').close()
    px = subprocess.Popen([sys.executable, HERE + '/proxy.py', str(plane.base + 5), str(plane.base + 2), plane.dir + '/certs', control])
    shutil.copy(config, config + '.kept')
    with open(config) as f: text = f.read()
    with open(config, 'w') as f: f.write(text.replace(str(plane.base + 2), str(plane.base + 5)))
    time.sleep(1)
    try: yield set_control
    finally: px.kill(); px.wait(); os.replace(config + '.kept', config)

def late_reply(name, held, flags=()):
    """One reply to a renewal is late, and no later call of the election comes through."""
    with proxied() as set_control:
        begin(name, flags); at(12); plane.note('proxy', reply_delay_put=held, leader=leader()); set_control({'reply_delay_put': held})
        plane.wait_exit('a', 60); at(75); finish()

def late_release(name, lease, rounds, then='hold', held=4.7):
    """The same with three electors that release; with `hold` a's calls come through again when another leads, with `lose` never."""
    with proxied() as set_control:
        for k in range(rounds):
            set_control({}); begin('%s_%d' % (name, k + 1), ('--leader-elect-lease-duration=%ds' % lease, '--release-on-cancel=true'), 'abc')
            first, done = plane.holder_of(), set()
            at(10); plane.note('proxy', reply_delay_put=held, leader=leader()); set_control({'reply_delay_put': held, 'then': {then: True}})
            def look(holder):
                if holder != first and then == 'hold' and 'open' not in done: set_control({}); plane.note('proxy-open'); done.add('open')
                if plane.kcm['a'].poll() is not None and 'exit' not in done: plane.note('kcm-exit', who='a', rc=plane.kcm['a'].returncode); done.add('exit')
            watch(60, look); finish()

def s_ea2(): begin('ea2'); at(75); finish()
def s_eb(): begin('eb'); kills(8)
def s_en6():
    """a's time of day is 30 s ahead: bin/elector-ahead is built with another clock in client-go's elector"""
    plane.binary = {'a': 'elector-ahead'}; begin('en6'); kills(4); plane.binary = {}
def s_ed(): begin('ed', own={'b': ['--leader-elect-lease-duration=30s']}); kills(2, 9, 9)
def s_ec4(): freeze('ec4', 22)
def s_ec6r(): freeze('ec6r', 45, ('--leader-elect-lease-duration=23s', '--release-on-cancel=true'))
def s_eg():
    begin('eg', RELEASE)
    for k in range(3): time.sleep(8 + k); end_leader(signal.SIGTERM, 2)
    time.sleep(8); finish()
def s_egz(): frozen_then_ended('egz', 3, 'ab')
def s_egz4(): frozen_then_ended('egz4', 6, 'abc')
def s_eh(): late_reply('eh', 4.7)
def s_eh10(): late_reply('eh10', 9.5, ('--call-timeout=10s',))
def s_er18(): late_release('er18', 18, 3)
def s_er18l(): late_release('er18l', 18, 3, 'lose')
def s_er23(): late_release('er23', 23, 3)
def s_ax():
    """on an API server of a newer version: a kill, a SIGTERM, a freeze"""
    begin('ax', ('--informer=true', *RELEASE), node=False)
    at(8); end_leader(signal.SIGKILL, 3); time.sleep(9); end_leader(signal.SIGTERM, 3); time.sleep(9)
    l, h = leader(), plane.holder_of(); plane.signal(l, signal.SIGSTOP); wait_lead(h); time.sleep(5); plane.signal(l, signal.SIGCONT)
    plane.wait_exit(l, 30); time.sleep(8); finish()

if __name__ == '__main__': play(globals())
