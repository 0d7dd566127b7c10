"""The listing that a list of records gives at a moment, read from docs/FORMATS.md and from the policy in
docs/DEFINITIONS.md ("default_key").

A record here is any object with the fields of one of three kinds: a key with key_id (a uuid.UUID),
creation, activation, expiration and alg; a revocation with key_id and date; a mass revocation with
date alone. Moments are ticks of 100 ns since 0001-01-01 UTC.
"""

DAY = 864000000000
SKEW = 5 * 60 * 10000000
PROPAGATION = 2 * DAY
# A later moment is taken as this one.
LAST = 3155378975999999999 - 3650 * DAY


def is_key(record):
    return hasattr(record, "alg")


def keys_of(records):
    """For each id, in order of first appearance, the last record of it."""
    # A dictionary keeps the place of an id that is set anew.
    return list({record.key_id: record for record in records if is_key(record)}.values())


def mass_date_of(records):
    """The greatest date of a mass revocation, or None."""
    dates = [it.date for it in records if not is_key(it) and not hasattr(it, "key_id")]
    return max(dates, default=None)


def revoked_among(keys, records):
    """Those of the keys that a record revokes: by their id, or by a date above their creation."""
    ids = {it.key_id for it in records if not is_key(it) and hasattr(it, "key_id")}
    mass = mass_date_of(records) or 0
    return {key for key in keys if key.key_id in ids or key.creation < mass}


def is_usable(key):
    return key.alg in range(1, 10)


def preferred_of(keys, revoked, now):
    """Of the keys that are activated within the skew the one activated last, of several such the
    one of the smallest id: unless it is revoked, unusable or expired, for then there is none."""
    candidates = [key for key in keys if key.activation <= now + SKEW]
    if not candidates:
        return None
    latest = max(key.activation for key in candidates)
    ties = [key for key in candidates if key.activation == latest]
    best = min(ties, key=lambda key: key.key_id.int)
    if best in revoked or not is_usable(best) or best.expiration <= now:
        return None
    return best


def is_renewed(keys, revoked, preferred, now):
    """Whether a new key is wanted: no key that isn't revoked takes over before the preferred one
    expires and outlives the time that a new one takes to become known."""
    return preferred is None or not any(
        key.activation <= preferred.expiration + SKEW and key.expiration > now + PROPAGATION
        for key in keys
        if key not in revoked
    )


def fallback_of(keys, revoked, now):
    """Of the usable keys that are not revoked: of those that are known everywhere the one
    created last, where there is none of all the one created first; of several such the first."""
    usable = [key for key in keys if is_usable(key) and key not in revoked]
    known = [key for key in usable if key.creation + PROPAGATION <= now]
    if known:
        return max(known, key=lambda key: key.creation)
    return min(usable, key=lambda key: key.creation, default=None)


def state_of(key, revoked, now):
    if key in revoked:
        return "revoked"
    if not is_usable(key):
        return "unusable"
    if key.expiration <= now:
        return "expired"
    return "pending" if key.activation > now else "active"


def listing(records, moment):
    """The text that the program prints for these records at this moment."""
    now = min(moment, LAST)
    keys = keys_of(records)
    revoked = revoked_among(keys, records)
    preferred = preferred_of(keys, revoked, now)
    fallback = None if preferred else fallback_of(keys, revoked, now)
    mass = mass_date_of(records)
    lines = [f"ring {len(records)} elements at {now}"]
    lines.append("mass none" if mass is None else f"mass {mass}")
    for key in keys:
        lines.append(
            f"key {key.key_id} created {key.creation} activates {key.activation}"
            f" expires {key.expiration} alg {key.alg} {state_of(key, revoked, now)}"
        )
    if preferred:
        lines.append(f"default {preferred.key_id} by preference")
    elif fallback:
        lines.append(f"default {fallback.key_id} by fallback")
    else:
        lines.append("default none")
    lines.append(f"renew {'yes' if is_renewed(keys, revoked, preferred, now) else 'no'}")
    return "".join(f"{line}\n" for line in lines)
