"""etcd's v3 API over the keys of a quorum, which `cephmon-gateway` serves. It needs Debian's python3-grpcio and python3-protobuf."""
