"""Imported, it takes TLS out of the ledger's links while PLAIN is in the environment, to see what TLS costs. Who sends is believed then."""
import os
import ssl

import links

tls_always = links.tls_of


class Untouched:
    """In place of a context of TLS: a connection stays as it is."""

    @staticmethod
    def wrap_socket(link, **_):
        return link


def tls_of(folder, side):
    if "PLAIN" not in os.environ:
        return tls_always(folder, side)
    return Untouched if side == ssl.PROTOCOL_TLS_CLIENT else None


links.tls_of = tls_of
