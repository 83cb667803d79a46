"""The site answers under its own name alone."""
from __future__ import annotations

import socket
import ssl
import warnings

import pytest

from support.program import PATIENCE
from support.site import NAME, Link


def test_another_host_is_refused(site):
    assert site.ask("GET", "/lists/ALPHA", Host="evil.example").status == 421
    assert site.ask("GET", "/lists/ALPHA", Host=f"127.0.0.1:{site.port}").status == 421
    assert site.ask("GET", "/lists/ALPHA", Host=NAME).status == 200


@pytest.mark.parametrize("name", ["evil.example", None])
def test_another_name_gets_no_handshake(site, name):
    with pytest.raises(ssl.SSLError):
        Link(site, name).connect()


@pytest.mark.parametrize(("version", "is_taken"), [("TLSv1_1", False), ("TLSv1_2", True), ("TLSv1_3", True)])
def test_a_handshake_is_of_a_version_of_today(site, version, is_taken):
    own = ssl.create_default_context(cafile=site.told["certificate"])
    with warnings.catch_warnings():
        # Python warns of the version that is to be refused.
        warnings.simplefilter("ignore", DeprecationWarning)
        own.minimum_version = own.maximum_version = ssl.TLSVersion[version]
    # The system's own level may leave 1.1 out, too.
    own.set_ciphers("DEFAULT@SECLEVEL=0")
    with socket.create_connection(("127.0.0.1", site.port), timeout=PATIENCE) as plain:
        try:
            with own.wrap_socket(plain, server_hostname=NAME) as link:
                assert is_taken and link.version() == version.replace("_", ".")
        except ssl.SSLError:
            assert not is_taken
