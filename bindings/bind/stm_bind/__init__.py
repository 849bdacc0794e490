"""Modules for hosts, made from files of transactions: what `stm-bind` prints."""
