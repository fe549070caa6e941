"""A replica of a store: it carries out the entries of one log in etcd, in their order, on a store of its own."""

VERSION = "0.1.0"
