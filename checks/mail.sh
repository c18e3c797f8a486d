#!/usr/bin/env bash
# The gateway to mail of contrib: addresses, mails and messages of X.420 there and back, hostile mail, what others read
# of it, and a Postfix with two agents between two gateways, whose processes are killed. Run it at the top of the
# repository.
set -u
cd "$(dirname "$0")/.." || exit 2
. checks/program.bash
program python3
found mta_store
export PYTHONDONTWRITEBYTECODE=1
wrong=0
python3 checks/mail/addresses.py || wrong=1
python3 checks/mail/corpus.py 300 || wrong=1
python3 checks/mail/hostile.py || wrong=1
python3 checks/mail/dissected.py "$mta" "$made" || wrong=1
mkdir "$made/host"
python3 checks/mail/postfix.py "$mta" "$found" "$made/host" "${KILLS:-200}" || wrong=1
exit "$wrong"
