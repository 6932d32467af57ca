// This program is no part of the module around it: Debian has etcd 3.4, whose packages have other names as modules.
// service/build bench/etcd builds it without modules.
module calvundek.example/service/bench/etcd

go 1.19
