"""Prints the first of six ports that are free, and the six with them by which a cluster's nodes talk."""
import random
import socket


def is_free(port):
    with socket.socket() as tried:
        return tried.connect_ex(("127.0.0.1", port)) != 0


def main():
    while True:
        first = random.randrange(12_000, 20_000)  # all below those that the system gives
        if all(is_free(port + more) for port in range(first, first + 6) for more in (0, 10_000)):
            print(first)
            return


main()
