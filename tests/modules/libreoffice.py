"""LibreOffice, which signs a text as PDF with a time-stamp token. Run by Debian's Python, which has its library, with
the name of its pipe, the text, the PDF, and the TSA's URL."""

import os
import shutil
import subprocess
import sys
import time

PYTHON = "/usr/bin/python3"
SECONDS = 180


def is_here():
    """Whether LibreOffice is installed, with its library for Python, and NSS' tools, by which it finds its key."""
    has_library = subprocess.run([PYTHON, "-c", "import uno"], capture_output=True).returncode == 0
    return has_library and all(map(shutil.which, ("soffice", "certutil", "pk12util")))


def sign(folder, certified, url):
    """Whether LibreOffice stored a PDF in the folder, signed by this key and with a token from the URL; and the PDF."""
    database, text, pdf = (os.path.join(folder, name) for name in ("nss", "text.txt", "text.pdf"))
    bundle = os.path.join(folder, "code.p12")
    words = ["-inkey", certified.key, "-in", certified.pem, "-name", "code", "-passout", "pass:x", "-out", bundle]
    os.makedirs(database, exist_ok=True)
    with open(text, "w", encoding="ascii") as file:
        file.write("a document\n")
    for command in (
        ["openssl", "pkcs12", "-export", *words],
        ["certutil", "-N", "-d", f"sql:{database}", "--empty-password"],
        ["pk12util", "-i", bundle, "-d", f"sql:{database}", "-W", "x", "-K", ""],
    ):
        subprocess.run(command, check=True, capture_output=True)
    pipe = f"pipe-{os.path.basename(folder)}"
    environment = os.environ | {"HOME": folder, "MOZILLA_CERTIFICATE_FOLDER": f"sql:{database}"}
    office = ["soffice", "--headless", "--norestore", "--nologo", f"-env:UserInstallation=file://{folder}/profile"]
    office.append(f"--accept=pipe,name={pipe};urp")
    # a group of its own, since a script starts the program
    how = {"stdout": subprocess.DEVNULL, "stderr": subprocess.DEVNULL, "start_new_session": True}
    with subprocess.Popen(office, env=environment, **how) as running:
        asked = [PYTHON, __file__, pipe, text, pdf, url]
        said = subprocess.run(asked, capture_output=True, text=True, timeout=SECONDS).stdout
        try:
            running.wait(SECONDS)
        except subprocess.TimeoutExpired:
            os.killpg(running.pid, 9)
    return said.strip(), open(pdf, "rb").read() if os.path.exists(pdf) else b""


def connected(uno, pipe):
    """LibreOffice's services, once it listens there."""
    context = uno.getComponentContext()
    resolver = context.ServiceManager.createInstanceWithContext("com.sun.star.bridge.UnoUrlResolver", context)
    end = time.monotonic() + SECONDS / 2
    while True:
        try:
            return resolver.resolve(f"uno:pipe,name={pipe};urp;StarOffice.ComponentContext")
        except Exception:
            if time.monotonic() > end:
                raise
            time.sleep(0.3)


def main(pipe, text, pdf, url):
    import uno
    from com.sun.star.beans import PropertyValue

    def option(name, value):
        one = PropertyValue()
        one.Name, one.Value = name, value
        return one

    context = connected(uno, pipe)
    manager = context.ServiceManager
    security = manager.createInstanceWithContext("com.sun.star.xml.crypto.SEInitializer", context)
    keys = security.createSecurityContext("").getSecurityEnvironment().getPersonalCertificates()
    desktop = manager.createInstanceWithContext("com.sun.star.frame.Desktop", context)
    document = desktop.loadComponentFromURL(uno.systemPathToFileUrl(text), "_blank", 0, (option("Hidden", True),))
    signing = option("SignPDF", True), option("SignatureCertificate", keys[0]), option("SignatureTSA", url)
    filters = option("FilterName", "writer_pdf_Export"), option(
        "FilterData", uno.Any("[]com.sun.star.beans.PropertyValue", signing)
    )
    try:
        document.storeToURL(uno.systemPathToFileUrl(pdf), filters)
        print("stored")
    except Exception:
        print("not stored")
    document.close(True)
    try:
        desktop.terminate()
    except Exception:
        pass


if __name__ == "__main__":
    main(*sys.argv[1:])
