"""What the words of the program's lines mean, as tools/report says them: states, counters, premises, parts of a bound, statuses."""

# Of a port's word, what it says.
PORTS = {
    "down": "no carrier",
    "quiet": "quiet time begins",
    "ptp": "plain PTP",
    "present": "a slave that offers White Rabbit (PRESENT)",
    "s-lock": "its phase detector locks (S_LOCK)",
    "m-lock": "waits for its slave to lock (M_LOCK)",
    "locked": "locked (LOCKED)",
    "calibration": "CALIBRATION",
    "calibrated": "CALIBRATED",
    "resp-calib": "RESP_CALIB_REQ",
    "link-on": "link on (WR_LINK_ON)",
}
# Of a servo's state, what it says.
SERVOS = {
    "uninit": "servo uninit: it has no link, or no time yet",
    "sync-tai": "servo sync-tai: it sets whole seconds",
    "sync-nsec": "servo sync-nsec: it sets whole periods",
    "sync-phase": "servo sync-phase: it moves the phase",
    "wait-stable": "servo wait-stable: it waits until the loop is steady",
    "track": "TRACK: from here on its bound holds",
    "holdover": "HOLDOVER: it runs on without its parent, within its bound in HOLDOVER",
}
# Of a counter, whether it is normal, and what it points to. docs/OPERATING.md, "Counters", has the same in full.
COUNTERS = {
    "short": ("no", "a frame of fewer than 34 bytes: cut off, or no PTP"),
    "version": ("no", "PTP of version 1"),
    "kind": ("no", "a message type that this profile does not use: peer delay, Management"),
    "length": ("no", "a damaged frame, or one that is put together wrongly"),
    "time": ("no", "a damaged frame, or one that is put together wrongly"),
    "tlv": ("no", "a damaged frame, or one that is put together wrongly"),
    "badwr": ("no", "a White Rabbit TLV of another length: other firmware"),
    "onestep": ("no", "the peer is no two-step clock"),
    "domain": ("no", "another PTP domain on the same fibre, or a wrong `domain`"),
    "stranger": ("no", "cabling: the frames come from another port than the link's other end; or a wrong `identity`, `upper` or `lower`"),
    "notforus": ("no", "cabling: something between the two ports hands on what is for another port"),
    "quiet": ("a few after each carrier and each failed handshake", "the peer was ready first; many: cabling, the carrier comes and goes"),
    "unmatched": ("yes, while no chain of samples is there: before the link is on, in HOLDOVER and without a lease",
                  "rising in TRACK: lost Syncs or Follow_Ups, or frames that come twice"),
    "range": ("no", "both ways together are outside the delay law: a wrong `table`, or other delays of the modules than in the file"),
    "sample": ("no", "the phase detector glitches, or samples come twice"),
}
# Of a premise of audit, what an event has to keep, and how SHOWN and BOUND are to be read: a time in tau, 10^12 times a
# time, 2^40 times a time, or a number.
TIME, SCALED, LAW, NUMBER = "time", "scaled", "law", "number"
PREMISES = {
    "TickEarly": ("a tick comes at least dmin after the node's last tick or its `up`", TIME),
    "TickLate": ("a tick comes at most dmax after the node's last tick or its `up`", TIME),
    "Rate": ("a clock drifts at most by `slew` where its lock detector is locked, by `held` in HOLDOVER, and not at all at the grandmaster", SCALED),
    "FibreRate": ("the delay of a fibre moves by at most 2 ps a second each way", SCALED),
    "Fibre": ("the delays of a fibre are not below 0, with both ports within reach, and keep kappa within err", NUMBER),
    "Module": ("a true delay of a module is within err of its entry", TIME),
    "TxStamp": ("a send stamp is within e_tx of the node's reading", TIME),
    "RxRaw": ("a receive stamp comes at its time, its tag is within e_tag of the true place, and its two counters are right", NUMBER),
    "Beat": ("the beat bits have their edge within `beat` steps of where it should be", NUMBER),
    "TooOld": ("a frame is handed over within its life", TIME),
    "NotSent": ("a frame that is handed over or departs was sent before", NUMBER),
    "Forged": ("octets that the peer did not send do not decode as a frame of the peer", NUMBER),
    "NotUp": ("the node is up, the port has its carrier, and the link is as the event needs it", NUMBER),
}
TRACE = {
    "Fields": "the line is empty, has too many or too few commas, or a byte that may not be in a line",
    "Kind": "it begins with no kind of record that this command takes there: it may be a record of another command",
    "Number": "this is no number, or one out of its range",
    "Name": "this is no name of a node, a link or a word that may be there, or it comes twice",
}
STATUSES = {
    0: "Done: the input was read to its end",
    3: "BadTrace: a record is none of this command",
    4: "Broken: an event breaks a premise",
    5: "ReadFault: the input failed",
    6: "WriteFault: the output failed",
    7: "LinkFault: a socket could not be opened, or failed",
    8: "TooLarge: a text, a line or a number is past its limit",
    9: "OutOfMemory: there was no memory",
}
# Of a part of a bound, what it is. docs/CONTROL.md has the sums.
PARTS = {
    "track_tau": "TRACK is left where an estimate differs by more from what the loop sees",
    "loop_tau": "TRACK is left where the error of the loop is greater",
    "down_error": "what the Sync's stamps, the tag and the phase with it may be off",
    "up_error": "the same of the Delay_Req",
    "detector_error": "the newest sample's own error",
    "gap_motion": "how far clocks and fibre move between two good samples",
    "scaled_error": "the share of the way down in the error of both ways",
    "2 * e_db": "the two port delays on the way down",
    "4 * e_db": "four port delays of both ways",
    "e_asym": "the fibre's asymmetry, its `err`",
    "age_motion": "how far the fibre moves between measuring and last use",
    "law_err": "the delay law's own error",
}
