"""The stream of records at the brokers: what `publish` and `follow` share."""

import argparse
import sys
import time

import pika

RECORD = 512
FAULTS = pika.exceptions.AMQPError
REFUSALS = (pika.exceptions.ProbableAuthenticationError, pika.exceptions.ProbableAccessDeniedError)


def say(line):
    """Writes a line to standard error."""
    print(line, file=sys.stderr, flush=True)


def options_of(description):
    """The options that both programs take."""
    options = argparse.ArgumentParser(description=description)
    options.add_argument("--broker", action="append", metavar="HOST:PORT", help="a broker; of several, whichever answers is taken (localhost:5672)")
    options.add_argument("--stream", default="records", help="the name of the stream (records)")
    options.add_argument("--user", default="guest", help="the user at the brokers (guest)")
    options.add_argument("--password-file", metavar="FILE", help="a file with the password of the user")
    return options


def password_in(path):
    """The password in a file. Without a file it is that of `guest`, whom a broker takes from its own machine only."""
    if path is None:
        return "guest"
    with open(path, encoding="utf-8") as file:
        return file.read().strip()


def parameters_of(broker, credentials):
    """How to reach a broker. One that has been silent for some 20 seconds is given up."""
    host, _, port = broker.rpartition(":")
    return pika.ConnectionParameters(host, int(port), credentials=credentials, heartbeat=10)


class Brokers:
    """The brokers that have the stream."""

    def __init__(self, options):
        credentials = pika.PlainCredentials(options.user, password_in(options.password_file))
        self.stream = options.stream
        self.parameters = [parameters_of(broker, credentials) for broker in options.broker or ["localhost:5672"]]

    def connect(self):
        """A connection to the first broker that answers, or None if none does. A user who is refused ends the program."""
        try:
            return pika.BlockingConnection(self.parameters)
        except REFUSALS:
            raise SystemExit("the broker refuses the user or the password") from None
        except FAULTS:
            say("no broker answers")
            time.sleep(1)
            return None


def close(connection):
    """Closes a connection, also one that is lost."""
    try:
        connection.close()
    except FAULTS:
        pass
