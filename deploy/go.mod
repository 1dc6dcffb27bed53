module luvdregan.example/resb/deploy

go 1.19

require luvdregan.example/resb/library/go v0.0.0

replace luvdregan.example/resb/library/go => ../library/go

require (
	github.com/beorn7/perks v1.0.1
	github.com/cespare/xxhash/v2 v2.1.2
	github.com/coreos/go-semver v0.3.0
	github.com/coreos/go-systemd v0.0.0
	github.com/coreos/pkg v0.0.0
	github.com/gogo/protobuf v1.3.2
	github.com/golang/protobuf v1.5.2
	github.com/google/uuid v1.3.0
	github.com/mattn/go-sqlite3 v1.14.16
	github.com/matttproud/golang_protobuf_extensions v1.0.4
	github.com/prometheus/client_golang v1.14.0
	github.com/prometheus/client_model v0.3.0
	github.com/prometheus/common v0.39.0
	github.com/prometheus/procfs v0.8.0
	go.etcd.io/etcd v0.0.0
	go.uber.org/atomic v1.10.0
	go.uber.org/multierr v1.6.0
	go.uber.org/zap v1.23.0
	golang.org/x/crypto v0.4.0
	golang.org/x/net v0.7.0
	golang.org/x/sys v0.5.0
	golang.org/x/text v0.7.0
	google.golang.org/genproto v0.0.0-20200413115906-b5235f65be36
	google.golang.org/grpc v1.33.3
	google.golang.org/protobuf v1.28.1
)
