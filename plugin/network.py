"""A network that gets slow: from a moment on each request to the API server and each reply of it takes so long."""
from cluster_flags import Wrong, duration, millis

MOST_BEATS = 6_000


def slow(document, delay, at):
    """The document with these delays of all controllers and kubelets."""
    settings = document['settings']
    beat = settings['beatMillis']
    beats, start = millis(delay, 'slow-network') // beat, millis(at, '--at') // beat
    if not 1 <= beats <= MOST_BEATS:
        raise Wrong('slow-network %s: a message takes %s to %s where a beat has %s' % (delay, duration(beat), duration(MOST_BEATS * beat), duration(beat)))
    if start > settings['endBeat']:
        raise Wrong('--at %s is after the end; let it run longer: --for' % at)
    processes = [each['name'] for each in document['controllers']] + ['kubelet/' + each['node'] for each in document['kubelets']]
    events = [{'beat': start, 'type': 'delay', 'process': process, 'requestBeats': beats, 'replyBeats': beats} for process in processes]
    return {**document, 'events': document['events'] + events}
