"""Another signature by a one-time key that has signed already, as only a replica makes one that does not follow the rules."""
import hashlib, os, sys

sys.path.append(os.path.join(os.path.dirname(os.path.abspath(__file__)), "../../examples/python"))
from second_check import CHAINS, D_MESG, coefficients, prefixed_hash

# A one-time signature behind the number of its leaf, and the path to the root behind that.
OTS = 4 + 4 + 32 * (1 + CHAINS)


def sign_again(key_id, seed, signature, message, draw):
    """By the leaf that made this signature (RFC 8554, section 4.5, with the private key of appendix A)."""
    head = signature[:8]
    leaf, randomizer = int.from_bytes(head[:4], "big"), hashlib.sha256(draw).digest()
    digest = prefixed_hash(key_id, leaf, D_MESG, randomizer, message)
    values = []
    for chain, steps in enumerate(coefficients(digest)):
        value = hashlib.sha256(key_id + leaf.to_bytes(4, "big") + chain.to_bytes(2, "big") + b"\xff" + seed).digest()
        for step in range(steps):
            value = prefixed_hash(key_id, leaf, chain, bytes([step]), value)
        values.append(value)
    return head + randomizer + b"".join(values) + signature[OTS:]
