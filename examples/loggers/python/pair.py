"""Two processes that log: python3 pair.py client|store FOLDER CLIENT_PORT STORE_PORT [no-clocks]

The client has the store keep the numbers from 1 to 400, one behind the other. Of the messages that
come to the store every third is lost, and every second comes twice; so the client asks until it has
its answer.
"""
import json, signal, socket, sys, time
from potalog import Log


def send(network, port, stamp, number):
    text = json.dumps({"stamp": stamp, "number": number}).encode()
    network.sendto(text, ("127.0.0.1", port))


def received(network):
    try:
        message = json.loads(network.recv(4096))
        return message["stamp"], message["number"]
    except TimeoutError:
        return None


def run_client(log, network, store):
    for number in range(1, 401):
        time.sleep(0.05)
        stamp = log.send("store", asked=number)
        while True:
            send(network, store, stamp, number)  # again the same message, so the same stamp
            message = received(network)
            if not message:
                continue
            with log.receive(message[0]) as first:
                if first and message[1] == number:
                    log.set(told=number)
                    break


def run_store(log, network, client):
    count = 0
    while True:
        message = received(network)
        count += bool(message)
        if not message or count % 3 == 0:
            continue
        for _ in range(2 if count % 2 == 0 else 1):
            with log.receive(message[0]) as first:
                if first:
                    log.set(kept=message[1])
                answer = log.send("client")
            send(network, client, answer, message[1])


def main(me, folder, client, store, form="clocks"):
    variables = {"client": {"asked": 0, "told": 0}, "store": {"kept": 0}}[me]
    log = Log(me, ["client", "store"], variables, folder, form == "clocks")
    network = socket.socket(socket.AF_INET, socket.SOCK_DGRAM)
    network.bind(("127.0.0.1", int(client if me == "client" else store)))
    network.settimeout(0.02)
    signal.alarm(60)  # nobody has to stop it
    if me == "client":
        run_client(log, network, int(store))
    else:
        run_store(log, network, int(client))


if __name__ == "__main__":
    main(*sys.argv[1:])
