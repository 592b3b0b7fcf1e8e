// elector takes part in the leader election of kube-controller-manager, by client-go alone, and acts while it leads: twice a second it
// patches an annotation of node n1, and it looks at no Lease before that, as no controller does. It ends with 255 where it lost the Lease,
// and with 0 where it was asked to end. Standard output has its instants, in seconds since 1970.
package main

import (
	"context"
	"flag"
	"fmt"
	"os"
	"os/signal"
	"syscall"
	"time"

	metav1 "k8s.io/apimachinery/pkg/apis/meta/v1"
	"k8s.io/apimachinery/pkg/types"
	"k8s.io/apimachinery/pkg/util/uuid"
	"k8s.io/client-go/informers"
	"k8s.io/client-go/kubernetes"
	"k8s.io/client-go/rest"
	"k8s.io/client-go/tools/clientcmd"
	"k8s.io/client-go/tools/leaderelection"
	"k8s.io/client-go/tools/leaderelection/resourcelock"
)

const (
	leaseNamespace, leaseName = "kube-system", "kube-controller-manager"
	actedOn                   = "n1"
	actEach                   = 500 * time.Millisecond
	suffix                    = 6 // an act names its identity by so many last letters
	lostTheLease              = 255
)

type options struct {
	kubeconfig                              string
	lease, deadline, retry, timeout         time.Duration
	isReleasing, isHandlingTerm, isWatching bool
}

func parsed() (o options) {
	flag.StringVar(&o.kubeconfig, "kubeconfig", "", "the API server and the user")
	flag.DurationVar(&o.lease, "leader-elect-lease-duration", 15*time.Second, "")
	flag.DurationVar(&o.deadline, "leader-elect-renew-deadline", 10*time.Second, "")
	flag.DurationVar(&o.retry, "leader-elect-retry-period", 2*time.Second, "")
	flag.DurationVar(&o.timeout, "call-timeout", 0, "of the election's calls; 0 for half the renew deadline, as client-go makes it")
	flag.BoolVar(&o.isReleasing, "release-on-cancel", false, "ReleaseOnCancel")
	flag.BoolVar(&o.isHandlingTerm, "handle-sigterm", false, "cancel the election at a SIGTERM, and don't die by it")
	flag.BoolVar(&o.isWatching, "informer", false, "watch Leases too, as a controller watches its objects")
	flag.Parse()
	return
}

func must[T any](it T, err error) T {
	if err != nil {
		panic(err)
	}
	return it
}

func tell(format string, words ...any) {
	fmt.Printf("%.6f %s\n", float64(time.Now().UnixMicro())/1e6, fmt.Sprintf(format, words...))
}

// lockOf is the Lease as client-go makes it from a kubeconfig, or with a call timeout of its own.
func lockOf(o options, config *rest.Config, identity string) resourcelock.Interface {
	its := resourcelock.ResourceLockConfig{Identity: identity}
	if o.timeout == 0 {
		return must(resourcelock.NewFromKubeconfig(resourcelock.LeasesResourceLock, leaseNamespace, leaseName, its, config, o.deadline))
	}
	own := rest.AddUserAgent(config, "leader-election")
	own.Timeout = o.timeout
	client := kubernetes.NewForConfigOrDie(own)
	return must(resourcelock.New(resourcelock.LeasesResourceLock, leaseNamespace, leaseName, client.CoreV1(), client.CoordinationV1(), its))
}

func act(ctx context.Context, client kubernetes.Interface, identity string) {
	tell("leads")
	for number := 0; ctx.Err() == nil; number++ {
		patch := fmt.Sprintf(`{"metadata":{"annotations":{"elector/act":"%s %d"}}}`, identity[len(identity)-suffix:], number)
		_, err := client.CoreV1().Nodes().Patch(context.Background(), actedOn, types.MergePatchType, []byte(patch), metav1.PatchOptions{})
		if err != nil {
			tell("act: %v", err)
		}
		time.Sleep(actEach)
	}
}

// untilAsked gives a context that a SIGTERM cancels, where it is handled, and whether that has happened.
func untilAsked(o options) (context.Context, func() bool) {
	if !o.isHandlingTerm {
		return context.Background(), func() bool { return false }
	}
	ctx, _ := signal.NotifyContext(context.Background(), syscall.SIGTERM)
	return ctx, func() bool { return ctx.Err() != nil }
}

func main() {
	o := parsed()
	config := must(clientcmd.BuildConfigFromFlags("", o.kubeconfig))
	config.QPS, config.Burst = 20, 30
	config.ContentType = "application/json" // a custom resource takes no protobuf
	identity := must(os.Hostname()) + "_" + string(uuid.NewUUID())
	worker := kubernetes.NewForConfigOrDie(rest.AddUserAgent(config, "node-controller"))
	ctx, isAsked := untilAsked(o)
	if o.isWatching {
		factory := informers.NewSharedInformerFactory(worker, 0)
		factory.Coordination().V1().Leases().Informer()
		factory.Start(context.Background().Done())
	}
	tell("starts as %s", identity)
	leaderelection.RunOrDie(ctx, leaderelection.LeaderElectionConfig{
		Lock: lockOf(o, config, identity), Name: leaseName, LeaseDuration: o.lease, RenewDeadline: o.deadline, RetryPeriod: o.retry,
		ReleaseOnCancel: o.isReleasing, WatchDog: leaderelection.NewLeaderHealthzAdaptor(20 * time.Second),
		Callbacks: leaderelection.LeaderCallbacks{
			OnStartedLeading: func(ctx context.Context) { act(ctx, worker, identity) },
			OnNewLeader:      func(other string) { tell("sees %s", other) },
			OnStoppedLeading: func() {
				tell("stops")
				if !isAsked() {
					os.Exit(lostTheLease)
				}
			},
		},
	})
	tell("ends")
}
