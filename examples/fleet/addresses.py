"""Addresses, as words of a command line."""
import argparse

Address = tuple[str, int]


def address(word: str) -> Address:
    host, _, port = word.rpartition(":")
    if not host or not (port.isascii() and port.isdigit() and len(port) < 6 and 0 < int(port) < 65_536):
        raise argparse.ArgumentTypeError(f"'{word[:60]}' is no HOST:PORT")
    return host, int(port)


def addresses(word: str) -> list[Address]:
    return [address(it) for it in word.split(",")] if word else []
