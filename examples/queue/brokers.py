"""How posters and mirrors reach the broker, and what its owner makes there."""
import os
import ssl

import pika

EXCHANGE = os.environ.get("EXCHANGE", "bundles")
# The most bytes of a bundle, and so of a message.
MOST = 4 << 20
QUEUE = {
    "x-queue-type": "quorum",  # kept by most of the broker's machines before it is confirmed
    "x-max-length": int(os.environ.get("BOUND", "1000")),
    "x-overflow": "reject-publish",  # a full queue tells the poster, and drops nothing that it has
    "x-single-active-consumer": True,  # nobody gets the next bundle while somebody still has one
    "x-delivery-limit": 2**31 - 1,  # what comes again comes first, and isn't dropped for having come too often
}


def brokers():
    """The broker's machines. With TLS=PATH the account is that of the certificate PATH.pem, whose key is PATH.key; the broker's
    is signed by ca.pem beside it."""
    found = [pika.URLParameters(url) for url in os.environ.get("BROKERS", "amqp://localhost:5690").split()]
    path = os.environ.get("TLS")
    if path:
        context = ssl.create_default_context(cafile=os.path.join(os.path.dirname(path), "ca.pem"))
        context.verify_flags |= ssl.VERIFY_X509_STRICT  # as Python does by itself from 3.13 on
        context.load_cert_chain(path + ".pem", path + ".key")
        for each in found:
            each.ssl_options = pika.SSLOptions(context, each.host)
            each.credentials = pika.credentials.ExternalCredentials()
    return found
