"""Jobs beside one another, each in a thread."""
import threading


def all_at_once(jobs):
    """Runs jobs, each a title and a call, until all have ended: a text for each whose call raised something."""
    wrong = []

    def ran(title, does):
        try:
            does()
        except Exception as why:
            wrong.append(f"{title}: {why!r}\n{why}")

    running = [threading.Thread(target=ran, args=job) for job in jobs]
    for it in running:
        it.start()
    for it in running:
        it.join()
    return wrong
