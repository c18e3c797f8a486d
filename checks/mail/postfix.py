#!/usr/bin/env python3
"""Mail through two gateways and two agents, with Postfix on either side: checks/mail/postfix.py MTA MTA_STORE FOLDER
[KILLS [kills]].

With the word kills nothing else is tried. anna@one.example has the gateway of GOLD, watt and morse at two.example that of SILVER. What goes and what comes back is
read by IMAP, where dovecot is installed. Then KILLS processes (200) are killed at random while mails go; none is lost,
and those that come twice are counted.
"""
import contextlib
import email
import email.message
import email.policy
import imaplib
import os
import random
import shutil
import signal
import smtplib
import subprocess
import sys
import time

from common import Wrong, want
from host import Host, a_port, needed, programs_of, until

ANNA, WATT, MORSE = "anna@one.example", "watt@two.example", "morse@two.example"
AT_ONE, AT_TWO = "x400.one.example", "x400.two.example"
TO_WATT, TO_MORSE = (f"/C=US/A=SILVER/S={it}/@{AT_ONE}" for it in ("WATT", "MORSE"))
TO_LIST, TO_NOBODY = f"/C=US/A=SILVER/CN=STAFF/@{AT_ONE}", f"/C=US/A=SILVER/S=NOBODY/@{AT_ONE}"
TO_ANNA = f"/C=GB/A=GOLD/S=ANNA/@{AT_TWO}"
TABLE_ONE = f"""gateway {AT_ONE}
prefix C=GB;A=GOLD;P=MAIL
postmaster root@one.example
user root root@one.example C=GB;A=GOLD;S=ROOT
user anna {ANNA} C=GB;A=GOLD;S=ANNA
"""
TABLE_TWO = f"""gateway {AT_TWO}
prefix C=US;A=SILVER;P=MAIL
postmaster root@two.example
user root root@two.example C=US;A=SILVER;S=ROOT
user watt {WATT} C=US;A=SILVER;S=WATT
user morse {MORSE} C=US;A=SILVER;S=MORSE
"""
DOVECOT = """base_dir = {made}/dovecot
log_path = {made}/dovecot.log
state_dir = {made}/dovecot
protocols = imap
listen = 127.0.0.1
ssl = no
disable_plaintext_auth = no
default_internal_user = nobody
default_login_user = nobody
default_internal_group = nogroup
first_valid_uid = 1
mail_location = maildir:{made}/boxes/%u
passdb {{
  driver = static
  args = password=secret
}}
userdb {{
  driver = static
  args = uid=65534 gid=65534 home={made}/boxes/%u
}}
service imap-login {{
  chroot =
  inet_listener imap {{
    port = {port}
  }}
}}
service anvil {{
  chroot =
}}
"""


def build(host):
    """Two agents, each with a post office and a gateway, and Postfix."""
    gold, silver, two = a_port(), a_port(), a_port()
    one = a_port()
    host.agent("GOLD", "domain C=GB;A=GOLD\nname GOLD-1\npeer GOLD-POST a b twa 16 3\npeer SILVER-1 c d twa 16 3\n"
               "mailbox root C=GB;A=GOLD;S=ROOT\nmailbox anna C=GB;A=GOLD;S=ANNA\nroute C=GB;A=GOLD here\n"
               "route C=US;A=SILVER peer SILVER-1\n")
    host.agent("POST-1", "domain C=GB;A=GOLD;P=POST\nname GOLD-POST\npeer GOLD-1 b a twa 16 3\nroute C=GB peer GOLD-1\n"
               "route C=US peer GOLD-1\n")
    host.agent("SILVER", "domain C=US;A=SILVER\nname SILVER-1\npeer GOLD-1 d c twa 16 3\npeer SILVER-POST e f twa 16 3\n"
               "mailbox root C=US;A=SILVER;S=ROOT\nmailbox watt C=US;A=SILVER;S=WATT\nmailbox morse C=US;A=SILVER;S=MORSE\n"
               "list staff back C=US;A=SILVER;CN=STAFF\nmember staff C=US;A=SILVER;S=WATT\n"
               "member staff C=US;A=SILVER;S=MORSE\nroute C=US;A=SILVER here\nroute C=GB;A=GOLD peer GOLD-1\n")
    host.agent("POST-2", "domain C=US;A=SILVER;P=POST\nname SILVER-POST\npeer SILVER-1 f e twa 16 3\n"
               "route C=GB peer SILVER-1\nroute C=US peer SILVER-1\n")
    host.serve("SILVER", f"in:{silver}", f"in:{two}")
    host.serve("GOLD", f"in:{one}", f"out:SILVER-1:127.0.0.1:{silver}")
    for name, table, agent, office, call in (("one", TABLE_ONE, "GOLD", "POST-1", f"out:GOLD-1:127.0.0.1:{one}"),
                                             ("two", TABLE_TWO, "SILVER", "POST-2", f"out:SILVER-1:127.0.0.1:{two}")):
        host.gateway(name, table, agent, host.office(office, call))
    host.postfix({"one": AT_ONE, "two": AT_TWO}, [ANNA, WATT, MORSE, "root@one.example", "root@two.example"])


def post(host, made, sender, *recipients):
    """Gives a mail to Postfix by SMTP."""
    with smtplib.SMTP("127.0.0.1", host.port, timeout=120) as it:
        it.sendmail(sender, recipients, made.as_bytes(policy=email.policy.SMTP.clone(max_line_length=900)))


def mail(subject, sender=ANNA, to=TO_WATT, text="Hello\n", **more):
    made = email.message.EmailMessage()
    made["From"], made["To"], made["Subject"] = f"Anna <{sender}>", to, subject
    made["Message-ID"] = f"<{subject.encode('utf-8').hex()[:20]}@{sender.partition('@')[2]}>"
    made["Date"] = email.utils.formatdate()
    for name, value in more.items():
        made[name.replace("_", "-")] = value
    made.set_content(text)
    return made


class Reader:
    """The mailboxes as a client of IMAP sees them; the files of Maildir where there is no dovecot."""

    def __init__(self, host):
        self.host, self.process, self.port = host, None, a_port()
        if shutil.which("dovecot", path="/usr/sbin:/usr/bin"):
            path = host.write("dovecot.conf", DOVECOT.format(made=host.made, port=self.port))
            self.process = subprocess.Popen([shutil.which("dovecot", path="/usr/sbin:/usr/bin"), "-F", "-c", path],
                                            stdout=subprocess.DEVNULL, stderr=subprocess.DEVNULL)

    def mails(self, address):
        if self.process is None:
            return self.host.mails(address)
        until(lambda: self.tried(address) is not None, "dovecot answers", 60)
        return self.tried(address)

    def tried(self, address):
        with contextlib.suppress(OSError, imaplib.IMAP4.error), imaplib.IMAP4("127.0.0.1", self.port, timeout=30) as it:
            it.login(address, "secret")
            it.select("INBOX", readonly=True)
            numbers = it.search(None, "ALL")[1][0].split()
            return [it.fetch(each, "(BODY.PEEK[])")[1][0][1] for each in numbers]
        return None

    def stop(self):
        if self.process is not None:
            self.process.terminate()
            self.process.wait(60)


def read(octets):
    return email.message_from_bytes(octets.replace(b"\r\n", b"\n"), policy=email.policy.default)


def waited(host, reader, address, what, told):
    """The first mail of an address that has something, as a client reads it."""
    def looked():
        return next((it for it in map(read, host.mails(address)) if what(it)), None)
    until(looked, f"{told}; the log ends {host.log()[-1500:]}")
    return next(it for it in map(read, reader.mails(address)) if what(it))


def with_subject(text):
    return lambda it: str(it["Subject"]) == text


# ---- what goes


def plain_and_accented(host, reader):
    post(host, mail("Plain"), ANNA, TO_WATT)
    post(host, mail("Grüße aus Łódź", text="Zażółć gęślą jaźń\n"), ANNA, TO_WATT)
    found = waited(host, reader, WATT, with_subject("Plain"), "a plain mail")
    want("the plain text", found.get_content(), "Hello\n")
    want("who wrote it", found["From"].addresses[0].addr_spec, TO_ANNA)
    found = waited(host, reader, WATT, with_subject("Grüße aus Łódź"), "an accented mail")
    want("the accented text", found.get_content(), "Zażółć gęślą jaźń\n")


def page_with_picture(host, reader):
    made, picture = mail("Page"), os.urandom(5000)
    made.add_alternative('<p>See <img src="cid:one@x"></p>\n', subtype="html")
    made.get_payload()[1].add_related(picture, "image", "png", cid="<one@x>")
    post(host, made, ANNA, TO_WATT)
    found = waited(host, reader, WATT, with_subject("Page"), "a page with a picture")
    page = found.get_body(("html",))
    want("the page", page.get_content(), '<p>See <img src="cid:one@x"></p>\n')
    pictures = [it for it in found.walk() if it.get_content_type() == "image/png"]
    want("the picture", [(it["Content-ID"], it.get_content()) for it in pictures], [("<one@x>", picture)])


def five_mebibytes(host, reader):
    made, octets = mail("Large"), random.Random(5).randbytes(5 << 20)
    made.add_attachment(octets, "application", "zip", filename="large.zip")
    post(host, made, ANNA, TO_WATT)
    found = waited(host, reader, WATT, with_subject("Large"), "an attachment of 5 MiB")
    want("the attachment", [(it.get_filename(), it.get_content() == octets) for it in found.iter_attachments()],
         [("large.zip", True)])


def a_list(host, reader):
    post(host, mail("To the staff", to=TO_LIST), ANNA, TO_LIST)
    for address in (WATT, MORSE):
        found = waited(host, reader, address, with_subject("To the staff"), "a mail to a list")
        want("the list", str(found["DL-Expansion-History"]).partition(";")[0], "/C=US/A=SILVER/CN=STAFF/")


def unknown_recipient(host, reader):
    post(host, mail("To nobody", to=TO_NOBODY), ANNA, TO_NOBODY)
    found = waited(host, reader, ANNA, lambda it: it.get_content_type() == "multipart/report", "a DSN")
    status = next(it for it in found.walk() if it.get_content_type() == "message/delivery-status")
    fields = status.get_payload()[1]
    want("the DSN", (str(fields["Action"]), str(fields["Status"]), str(fields["Final-Recipient"])),
         ("failed", "5.1.1", "x400; /C=US/A=SILVER/S=NOBODY/"))
    want("the message it is on", "To nobody" in found.as_string(), True)


def bad_address(host, reader):
    """A name outside what X.402 allows comes back at once, in words."""
    wrong = f"/C=US/A=SILVER/S={'W' * 41}/@{AT_ONE}"
    post(host, mail("Too long", to=wrong), ANNA, wrong)
    found = waited(host, reader, ANNA, lambda it: "S has 1 to 40 characters" in it.as_string(), "a DSN in words")
    want("the kind", found.get_content_type(), "multipart/report")


def receipt(host, reader):
    """The client of watt answers a wish for a receipt, and anna gets it."""
    post(host, mail("Receipt", Disposition_Notification_To=ANNA), ANNA, TO_WATT)
    found = waited(host, reader, WATT, with_subject("Receipt"), "a mail with a wish for a receipt")
    want("whom to tell", str(found["Disposition-Notification-To"]), TO_ANNA)
    made = email.message.EmailMessage()
    made["From"], made["To"], made["Subject"], made["Message-ID"] = WATT, TO_ANNA, "Read", "<mdn@two.example>"
    made["Date"] = email.utils.formatdate()
    made.set_content("It was read.\n")
    made.make_mixed()
    made.replace_header("Content-Type", 'multipart/report; report-type="disposition-notification"')
    told = email.message.Message()
    told["Content-Type"] = "message/disposition-notification"
    told.set_payload(f"Final-Recipient: rfc822; {WATT}\nOriginal-Message-ID: {found['Message-ID']}\n"
                     "Disposition: manual-action/MDN-sent-manually; displayed\n")
    made.attach(told)
    post(host, made, WATT, TO_ANNA)
    found = waited(host, reader, ANNA, lambda it: it.get_param("report-type") == "disposition-notification", "an MDN")
    text = found.as_string()
    want("the MDN", ("manual-action/MDN-sent-manually; displayed" in text, str(mail("Receipt")["Message-ID"]) in text),
         (True, True))


def answer(host, reader):
    """An answer goes back by X.400, and belongs to what it answers."""
    found = waited(host, reader, WATT, with_subject("Plain"), "a plain mail")
    made = mail("Re: Plain", WATT, TO_ANNA, "Thanks\n", In_Reply_To=str(found["Message-ID"]))
    post(host, made, WATT, TO_ANNA)
    found = waited(host, reader, ANNA, with_subject("Re: Plain"), "an answer")
    want("what it answers", str(found["In-Reply-To"]), str(mail("Plain")["Message-ID"]))


def no_way_back(host, reader):
    """What came from mail does not go back by the same gateway."""
    made = mail("Round", to=f"/C=GB/A=GOLD/S=ROOT/@{AT_ONE}")
    post(host, made, ANNA, f"/C=GB/A=GOLD/S=ROOT/@{AT_ONE}")
    found = waited(host, reader, ANNA, lambda it: "does not go back by it" in it.as_string(), "a DSN of a loop")
    want("the status", "Status: 5.4.6" in found.as_string(), True)


# ---- kills


def killed_meanwhile(host, kills):
    """Kills processes at random while mails go. Answers how many mails came twice."""
    any_of, done, sent = random.Random(79), 0, 0
    while done < kills:
        made = mail(f"Killed {sent}", to=TO_WATT)
        post(host, made, ANNA, TO_WATT)
        sent += 1
        for _ in range(any_of.randint(1, 4)):
            time.sleep(any_of.random() * 0.4)
            found = host.processes()
            if found:
                with contextlib.suppress(OSError):
                    os.kill(any_of.choice(found), signal.SIGKILL)
                    done += 1

    def subjects():
        return [str(it["Subject"]) for it in map(read, host.mails(WATT)) if str(it["Subject"]).startswith("Killed ")]
    until(lambda: len(set(subjects())) >= sent, "all mails after the kills", 600)
    time.sleep(5)
    found = subjects()
    want("what came", set(found), {f"Killed {it}" for it in range(sent)})
    print(f"{sent} mails, {done} processes killed at random: none lost, {len(found) - sent} came twice")
    if len(found) - sent > done:
        raise Wrong("more came twice than there were kills")


FLOWS = (plain_and_accented, page_with_picture, five_mebibytes, a_list, unknown_recipient, bad_address, receipt, answer,
         no_way_back)


def main():
    needed("postfix")
    programs, made, kills = programs_of(sys.argv[1:3]), sys.argv[3], int((sys.argv[4:] or ["200"])[0])
    host = Host(made, programs)
    reader = None
    try:
        build(host)
        reader = Reader(host)
        for each in FLOWS if "kills" not in sys.argv[5:] else ():
            each(host, reader)
            print(f"{each.__name__.replace('_', ' ')}: as wanted", flush=True)
        print("read by IMAP, of dovecot" if reader.process else "read as files: dovecot is not here")
        if kills:
            killed_meanwhile(host, kills)
    except Wrong as why:
        print(why)
        return 1
    finally:
        if reader is not None:
            reader.stop()
        host.stop()
    return 0


if __name__ == "__main__":
    sys.exit(main())
