"""Certificates of this check's own, by openssl: who signs, and one for all members, nodes and clients of this machine."""
import os
import ssl
import subprocess

from cluster import OWN

USES = "subjectAltName={}\nextendedKeyUsage=serverAuth,clientAuth\n"
HERE = f"IP:127.0.0.1,IP:{OWN},DNS:localhost"


def openssl(*words):
    subprocess.run(["openssl", *words], check=True, capture_output=True)


class Secrets:
    """`ca` signs, `certificate` and `key` are of this machine, `both` has the two in one file. Another one may be the signer; with 0 days they are
    over at once."""

    def __init__(self, folder, name="pazturrok", places=HERE, signer=None, days=2):
        self.ca, self.key, self.certificate, self.both = (os.path.join(folder, f"{name}.{kind}") for kind in ("ca", "key", "crt", "pem"))
        ca_key, request, uses = (os.path.join(folder, f"{name}.{kind}") for kind in ("ca-key", "csr", "uses"))
        curve = ["-newkey", "ec", "-pkeyopt", "ec_paramgen_curve:prime256v1", "-nodes"]
        if signer:
            self.ca, ca_key = signer.ca, signer.ca_key
        else:
            openssl("req", "-x509", *curve, "-days", "2", "-subj", f"/CN={name} signs", "-keyout", ca_key, "-out", self.ca)
        self.ca_key = ca_key
        openssl("req", *curve, "-subj", f"/O={name}", "-keyout", self.key, "-out", request)
        with open(uses, "w", encoding="ascii") as file:
            file.write(USES.format(places))
        openssl("x509", "-req", "-in", request, "-CA", self.ca, "-CAkey", ca_key, "-CAcreateserial", "-days", str(days), "-extfile", uses,
                "-out", self.certificate)
        with open(self.both, "w", encoding="ascii") as file:
            for part in (self.certificate, self.key):
                with open(part, encoding="ascii") as source:
                    file.write(source.read())

    def words_of_member(self):
        """What a member of etcd is told, so that it takes nobody without a certificate."""
        words = ["--client-cert-auth", "--peer-client-cert-auth"]
        for before in ("", "peer-"):
            words += [f"--{before}cert-file", self.certificate, f"--{before}key-file", self.key, f"--{before}trusted-ca-file", self.ca]
        return words

    def words_of_node(self):
        return ["--etcd-ca", self.ca, "--etcd-cert", self.both]

    def context(self):
        """By which a client looks who answers."""
        context = ssl.create_default_context(cafile=self.ca)
        context.load_cert_chain(self.both)
        return context
