"""Reports of X.411: what one says of each recipient, and its reasons and diagnostics in words."""
import p1
import x690 as ber
from x690 import CONTEXT

ROWS = (CONTEXT, 0)
ACTUAL_NAME, LAST_TRACE, SUPPLEMENT = (CONTEXT, 0), (CONTEXT, 3), (CONTEXT, 5)
ARRIVAL, REPORT_TYPE = (CONTEXT, 0), (CONTEXT, 1)
DELIVERY = (CONTEXT, 0)
USERS = ("public", "private", "ms", "dl", "pdau", "physical-recipient", "other")

# X.411, non-delivery reason codes and non-delivery diagnostic codes: the standard's name, and what it means
REASONS = {
    0: ("transfer-failure", "an agent tried and could not pass it on"),
    1: ("unable-to-transfer", "an agent may not, or cannot, do what the message asks for"),
    2: ("conversion-not-performed", "the content could not be converted as it had to be"),
    3: ("physical-rendition-not-performed", "it could not be printed"),
    4: ("physical-delivery-not-performed", "it could not be delivered on paper"),
    5: ("restricted-delivery", "the recipient takes nothing of this originator"),
    6: ("directory-operation-unsuccessful", "a name could not be looked up in a directory"),
    7: ("deferred-delivery-not-performed", "it could not be held back until the moment that was asked for"),
    8: ("transfer-failure-for-security-reason", "what security asks for was not met"),
}
DIAGNOSTICS = {
    0: ("unrecognised-OR-name", "nobody of this name is known there, and no route leads on"),
    1: ("ambiguous-OR-name", "the name is that of several"),
    2: ("mts-congestion", "an agent has more to do than it can"),
    3: ("loop-detected", "it came round to an agent through which it had been already"),
    4: ("recipient-unavailable", "the recipient cannot be reached now"),
    5: ("maximum-time-expired", "it waited for as long as it may, or its latest delivery time came"),
    6: ("encoded-information-types-unsupported", "the recipient does not take texts or files of this kind"),
    7: ("content-too-long", "the content is longer than an agent or the recipient takes"),
    8: ("conversion-impractical", "a conversion makes no sense here"),
    9: ("implicit-conversion-prohibited", "the originator allows no conversion, and one is needed"),
    10: ("implicit-conversion-not-subscribed", "a conversion is needed, and not to be had there"),
    11: ("invalid-arguments", "its envelope asks for what does not go together"),
    12: ("content-syntax-error", "its content is not what the content type says"),
    13: ("size-constraint-violation", "a part of its envelope is longer than it may be"),
    14: ("protocol-violation", "an agent found that its octets break the rules of the protocol"),
    15: ("content-type-not-supported", "the recipient does not take this content type"),
    16: ("too-many-recipients", "it has more recipients than an agent takes"),
    17: ("no-bilateral-agreement", "two agents on its way have no agreement with each other"),
    18: ("unsupported-critical-function", "it has a critical extension that an agent does not carry out"),
    19: ("conversion-with-loss-prohibited", "a conversion would lose something, which the originator does not allow"),
    20: ("line-too-long", "a line is too long for the conversion"),
    21: ("page-split", "a page would be split by the conversion"),
    22: ("pictorial-symbol-loss", "the conversion would lose a picture"),
    23: ("punctuation-symbol-loss", "the conversion would lose a punctuation mark"),
    24: ("alphabetic-character-loss", "the conversion would lose a letter"),
    25: ("multiple-information-loss", "the conversion would lose several things"),
    26: ("recipient-reassignment-prohibited", "it would go to another recipient, which the originator does not allow"),
    27: ("redirection-loop-detected", "it was redirected round in a circle"),
    28: ("dl-expansion-prohibited", "the name is that of a list, which the originator does not want to write to"),
    29: ("no-dl-submit-permission", "the originator may not write to this list"),
    30: ("dl-expansion-failure", "the list could not be expanded"),
    31: ("physical-rendition-attributes-not-supported", "it cannot be printed as it asks for"),
    32: ("undeliverable-mail-physical-delivery-address-incorrect", "the postal address is wrong"),
    33: ("undeliverable-mail-physical-delivery-office-incorrect-or-invalid", "there is no such post office"),
    34: ("undeliverable-mail-physical-delivery-address-incomplete", "the postal address lacks something"),
    35: ("undeliverable-mail-recipient-unknown", "nobody of this name is known at the postal address"),
    36: ("undeliverable-mail-recipient-deceased", "the recipient has died"),
    37: ("undeliverable-mail-organization-expired", "the organization at the postal address is no more"),
    38: ("undeliverable-mail-recipient-refused-to-accept", "the recipient refused it"),
    39: ("undeliverable-mail-recipient-did-not-claim", "the recipient did not fetch it"),
    40: ("undeliverable-mail-recipient-changed-address-permanently", "the recipient has moved for good"),
    41: ("undeliverable-mail-recipient-changed-address-temporarily", "the recipient has moved for a time"),
    42: ("undeliverable-mail-recipient-changed-temporary-address", "the recipient has left a temporary address"),
    43: ("undeliverable-mail-new-address-unknown", "the recipient has moved, nobody knows where to"),
    44: ("undeliverable-mail-recipient-did-not-want-forwarding", "the recipient wants nothing sent on"),
    45: ("undeliverable-mail-originator-prohibited-forwarding", "the originator wants nothing sent on"),
    46: ("secure-messaging-error", "what security asks for was not met"),
    47: ("unable-to-downgrade", "an agent of 1984 is on its way, and the message cannot be made one of 1984"),
    48: ("unable-to-complete-transfer", "the next agent could not take all of it"),
    49: ("transfer-attempts-limit-reached", "the next agent was tried as often as it may be"),
    50: ("incorrect-notification-type", "the content is a notification of the wrong kind"),
    51: ("dl-expansion-prohibited-by-security-policy", "the list may not be expanded, for reasons of security"),
    52: ("forbidden-alternate-recipient", "it would go to another recipient who may not have it"),
    53: ("security-policy-violation", "a rule of security forbids it"),
    54: ("security-services-refusal", "an agent does not give the security that it asks for"),
    55: ("unauthorised-dl-member", "a member of the list may not have it"),
    56: ("unauthorised-dl-name", "the list may not have it"),
    57: ("unauthorised-originally-intended-recipient-name", "the recipient that was meant first may not have it"),
    58: ("unauthorised-originator-name", "the originator may not send it"),
    59: ("unauthorised-recipient-name", "the recipient may not have it"),
    60: ("unreliable-system", "a system on its way is not to be trusted"),
    61: ("authentication-failure-on-subject-message", "its signature is not that of its originator"),
    62: ("decryption-failed", "it could not be decrypted"),
    63: ("decryption-key-unobtainable", "the key to decrypt it is not to be had"),
    64: ("double-envelope-creation-failure", "it could not be put into a second envelope"),
    65: ("double-enveloping-message-restoring-failure", "it could not be taken out of a second envelope"),
    66: ("failure-of-proof-of-message", "the proof that goes with it is wrong"),
    67: ("integrity-failure-on-subject-message", "it was changed on its way"),
    68: ("invalid-security-label", "its security label is wrong"),
    69: ("key-failure", "a key failed"),
    70: ("mandatory-parameter-absence", "something that security needs is absent"),
    71: ("operation-security-failure", "an operation of security failed"),
    72: ("repudiation-failure-of-message", "it lacks a proof that cannot be denied"),
    73: ("security-context-failure", "its security label does not go with that of a connection"),
    74: ("token-decryption-failed", "its token could not be decrypted"),
    75: ("token-error", "its token is wrong"),
    76: ("unknown-security-label", "its security label is unknown"),
    77: ("unsupported-algorithm-identifier", "it asks for an algorithm that is not to be had"),
    78: ("unsupported-security-policy", "it asks for rules of security that are not known"),
}


class Row:
    """What a report says of a recipient: delivered at a moment to a kind of user, or a reason and perhaps a
    diagnostic."""

    def __init__(self, name, arrival):
        self.name, self.arrival = name, arrival
        self.delivered = self.user = self.reason = self.diagnostic = self.supplement = None


class Report:
    """What is read of a report."""

    def __init__(self, identifier, destination, subject, rows):
        self.identifier, self.destination, self.subject, self.rows = identifier, destination, subject, rows


def row_of(it):
    found = p1.by_tag(it.children())
    trace = p1.by_tag(found[LAST_TRACE].children())
    row, said = Row(p1.name_of(found[ACTUAL_NAME]), trace[ARRIVAL].text()), trace[REPORT_TYPE].only()
    fields = p1.by_tag(said.children())
    if said.tag == DELIVERY:
        row.delivered = fields[CONTEXT, 0].text()
        row.user = fields[CONTEXT, 1].number() if (CONTEXT, 1) in fields else 0
    else:
        row.reason = fields[CONTEXT, 0].number()
        row.diagnostic = fields[CONTEXT, 1].number() if (CONTEXT, 1) in fields else None
    row.supplement = found[SUPPLEMENT].text() if SUPPLEMENT in found else None
    return row


def report_of(octets):
    """The report that octets are. What is no report is an error."""
    it = p1.apdu_of(octets)
    if it.kind != "report":
        raise ber.Fault(f"a {it.kind}, and no report")
    try:
        rows = [row_of(each) for each in p1.by_tag(it.of_content.children())[ROWS].children()]
        return Report(it.identifier, it.originator, it.subject, rows)
    except (LookupError, ValueError, TypeError) as why:
        raise ber.Fault(f"no report: {why!r}") from why


def words_of(number, table, what):
    name, means = table.get(number, (f"{what} {number}", "X.411 has no word for it"))
    return f"{name} ({means})"


def words(reason, diagnostic):
    """A reason and a diagnostic, which is None where none is given, in words."""
    said = words_of(reason, REASONS, "reason")
    return said if diagnostic is None else f"{said}, {words_of(diagnostic, DIAGNOSTICS, 'diagnostic')}"
