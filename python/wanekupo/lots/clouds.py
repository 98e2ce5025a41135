"""The files by which two clouds take many devices at once, made of a list's rows and of a spool.

Neither cloud was tried. AWS IoT Core takes a line of JSON for each thing, with the parameters of a template
(`StartThingRegistrationTask`). Azure IoT Hub takes a line of JSON for each device (bulk import of device identities).
"""

import hashlib
from collections import Counter
from pathlib import Path
from typing import Any, Callable, Mapping, Sequence

from wanekupo.common.errors import StationError
from wanekupo.lots.spools import CERTIFICATE, CSR, certificate_in, der_of, pem_of, request_in
from wanekupo.seat.states import IN_USE
from wanekupo.common.texts import compact_json

Row = Mapping[str, Any]


def aws_line(spool: Path, row: Row) -> dict[str, Any]:
    """A thing's parameters: its certificate where the spool has one, else the request for one of AWS's own."""
    serial = row["serial"]
    line = {"SerialNumber": serial, "ThingName": serial}
    certificate = certificate_in(spool, serial)
    if certificate is not None:
        return line | {"CertificatePem": pem_of("CERTIFICATE", der_of(certificate))}
    request = request_in(spool, serial)
    if request is None:
        raise lacks(spool, serial, CSR)
    return line | {"CSR": request.pem}


def azure_line(spool: Path, row: Row) -> dict[str, Any]:
    """A device that is known by the SHA-256 of its certificate."""
    certificate = certificate_in(spool, row["serial"])
    if certificate is None:
        raise lacks(spool, row["serial"], CERTIFICATE)
    thumbprint = hashlib.sha256(der_of(certificate)).hexdigest().upper()
    known = {"type": "selfSigned", "x509Thumbprint": {"primaryThumbprint": thumbprint}}
    return {"id": row["serial"], "importMode": "create", "status": "enabled", "authentication": known}


def cloud_lines(line: Callable[[Path, Row], dict[str, Any]], spool: Path, rows: Sequence[Row]) -> str:
    """The lines of the devices that are in use, all of one form, each serial number once. A cloud is to trust none that
    was scrapped."""
    made = [line(spool, row) for row in rows if row["state"] in IN_USE]
    forms = {tuple(sorted(it)) for it in made}
    if len(forms) > 1:
        told = "Have all of them certified first, or none."
        raise StationError("some devices have a certificate in the spool, and others only a request for one", told)
    names = Counter(row["serial"] for row in rows if row["state"] in IN_USE)
    for serial, count in names.items():
        if count > 1:
            raise StationError(f"two issuers have the serial number {serial}", "Make a list of each one's orders.")
    return "".join(compact_json(it, sort_keys=True) + "\n" for it in made)


def lacks(spool: Path, serial: str, ending: str) -> StationError:
    told = "Bring the spools of all benches into this folder, and certify what is in it: wanekupo certify."
    return StationError(f"{spool} has no {serial}{ending}", told)
