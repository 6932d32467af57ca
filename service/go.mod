module calvundek.example/service

go 1.19

require (
	github.com/BurntSushi/toml v1.2.0
	github.com/nats-io/nats.go v1.22.1
	github.com/nats-io/nkeys v0.3.0
	github.com/prometheus/client_golang v1.14.0
	github.com/spf13/cobra v1.6.1
	github.com/spf13/pflag v1.0.5
	go.etcd.io/bbolt v1.3.6
	golang.org/x/sys v0.3.0
)

require (
	github.com/beorn7/perks v1.0.1 // indirect
	github.com/cespare/xxhash/v2 v2.1.2 // indirect
	github.com/golang/protobuf v1.5.2 // indirect
	github.com/inconshreveable/mousetrap v1.0.1 // indirect
	github.com/matttproud/golang_protobuf_extensions v1.0.1 // indirect
	github.com/nats-io/nuid v1.0.1 // indirect
	github.com/prometheus/client_model v0.3.0 // indirect
	github.com/prometheus/common v0.37.0 // indirect
	github.com/prometheus/procfs v0.8.0 // indirect
	golang.org/x/crypto v0.4.0 // indirect
	google.golang.org/protobuf v1.28.1 // indirect
)
