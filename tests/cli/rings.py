"""The ring that a list of records gives at a moment, and what a payload opens to by it, read from
docs/FORMATS.md, and by listing.py from the policy in docs/DEFINITIONS.md."""

from listing import fallback_of, is_renewed, is_usable, keys_of, preferred_of, revoked_among
from records import MAX_TICKS
from wire import (
    UNPROTECT_TEXT,
    UNPROTECT_TIMED,
    head_refusal,
    is_text,
    key_id_of,
    ok,
    payload_of,
    refused,
    used_chain,
)

# Codes of refusals.
BEHIND, FULL, BAD_DATES, BAD_HEADER, BAD_VERSION = 0x06, 0x08, 0x09, 0x0A, 0x0B
KEY_NOT_FOUND, KEY_REVOKED, KEY_UNUSABLE, TAMPERED = 0x0C, 0x0D, 0x0E, 0x0F
INVALID, EXPIRED, NO_DEFAULT_KEY, TOO_LONG, BAD_TEXT, NOT_TEXT = range(0x10, 0x16)


class Ring:
    """The keys of a list, which of them are revoked, and which one protects."""

    def __init__(self, elements, now):
        self.front = len(elements)
        self.keys = keys_of(elements)
        self.revoked = revoked_among(self.keys, elements)
        self.preferred = preferred_of(self.keys, self.revoked, now)
        self.default = self.preferred or fallback_of(self.keys, self.revoked, now)
        self.is_renewed = is_renewed(self.keys, self.revoked, self.preferred, now)

    def find(self, key_id):
        return next((it for it in self.keys if it.key_id == key_id), None)


def payload_asked(request):
    """The payload that a request wants opened, or None where it has the text of none."""
    return payload_of(request.rest) if request.kind == UNPROTECT_TEXT else request.rest


def key_asked(payload):
    """The id of the key that such a payload names, or None."""
    return None if payload is None or head_refusal(payload) else key_id_of(payload)


def opened(request, app, ring, unsealed, now):
    """The reply to a request for what a payload opens to. unsealed gives what was sealed by a key for
    a chain, or None."""
    front = ring.front
    payload = payload_asked(request)
    if payload is None:
        return refused(BAD_TEXT, front)
    if head_refusal(payload):
        return refused(head_refusal(payload), front)
    key_id = key_id_of(payload)
    key = ring.find(key_id)
    if key is None:
        return refused(KEY_NOT_FOUND, front, key_id)
    is_revoked = key in ring.revoked
    if is_revoked and not request.allowed:
        return refused(KEY_REVOKED, front, key_id)
    if not is_usable(key):
        return refused(KEY_UNUSABLE, front, key_id)
    plain = unsealed(key, used_chain(request, app), payload)
    if plain is None:
        return refused(TAMPERED, front)
    return content(request.kind, front, bytes([is_revoked + 2 * (key is not ring.default)]), plain, now)


def content(kind, front, flags, plain, now):
    """The reply of what a payload opened to, at a moment."""
    if kind == UNPROTECT_TEXT and not is_text(plain):
        return refused(NOT_TEXT, front)
    if kind != UNPROTECT_TIMED:
        return ok(front, flags, plain)
    expiry = int.from_bytes(plain[:8], "big")
    if len(plain) < 8 or expiry > MAX_TICKS:
        return refused(INVALID, front)
    if now > expiry:
        return refused(EXPIRED, front, expiry)
    return ok(front, flags, plain)
