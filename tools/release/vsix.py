#!/usr/bin/env python3
"""Makes the extension for Visual Studio Code: a zip file with a manifest, which the editor installs from a file.

    vsix.py EDITORS VERSION OUT

It is made from sorted files with one time, so that the same commit gives the same bytes. Prints its path.
"""
import json
import os
import sys
import time
import zipfile
from pathlib import Path
from xml.sax.saxutils import quoteattr

TYPES = {'.json': 'application/json', '.js': 'application/javascript', '.md': 'text/markdown', '.vsixmanifest': 'text/xml'}


def content_types():
    rows = ''.join(f'<Default Extension="{suffix}" ContentType="{kind}"/>' for suffix, kind in sorted(TYPES.items()))
    return f'<?xml version="1.0" encoding="utf-8"?>\n<Types xmlns="http://schemas.openxmlformats.org/package/2006/content-types">{rows}</Types>\n'


def manifest(package):
    """What the editor reads of the package before it is unpacked."""
    identity = f'Language="en-US" Id={quoteattr(package["name"])} Version={quoteattr(package["version"])} Publisher={quoteattr(package["publisher"])}'
    return f"""<?xml version="1.0" encoding="utf-8"?>
<PackageManifest Version="2.0.0" xmlns="http://schemas.microsoft.com/developer/vsx-schema/2011">
  <Metadata>
    <Identity {identity}/>
    <DisplayName>{package['displayName']}</DisplayName>
    <Description xml:space="preserve">{package['description']}</Description>
    <Tags>{','.join(package['keywords'])}</Tags>
    <Categories>{','.join(package['categories'])}</Categories>
    <Properties>
      <Property Id="Microsoft.VisualStudio.Code.Engine" Value={quoteattr(package['engines']['vscode'])}/>
      <Property Id="Microsoft.VisualStudio.Code.ExtensionKind" Value="workspace"/>
    </Properties>
  </Metadata>
  <Installation><InstallationTarget Id="Microsoft.VisualStudio.Code"/></Installation>
  <Dependencies/>
  <Assets>
    <Asset Type="Microsoft.VisualStudio.Code.Manifest" Path="extension/package.json" Addressable="true"/>
    <Asset Type="Microsoft.VisualStudio.Services.Content.Details" Path="extension/README.md" Addressable="true"/>
  </Assets>
</PackageManifest>
"""


def contents(editors, version):
    folder = editors / 'vscode'
    package = json.loads((folder / 'package.json').read_text(encoding='utf-8'))
    if package['version'] != version:
        sys.exit(f'vsix.py: package.json has version {package["version"]}, and the release {version}')
    files = {f'extension/{path.name}': path.read_bytes() for path in folder.iterdir() if path.suffix in TYPES}
    files['extension/fluent.tmLanguage.json'] = (editors / 'fluent.tmLanguage.json').read_bytes()
    return files | {'[Content_Types].xml': content_types().encode(), 'extension.vsixmanifest': manifest(package).encode()}


def main():
    editors, version, out = sys.argv[1:]
    moment = time.gmtime(max(int(os.environ.get('SOURCE_DATE_EPOCH', '315532800')), 315532800))[:6]
    path = Path(out) / f'kozhvadi-{version}.vsix'
    with zipfile.ZipFile(path, 'w', zipfile.ZIP_DEFLATED) as made:
        for name, data in sorted(contents(Path(editors), version).items()):
            entry = zipfile.ZipInfo(name, moment)
            entry.compress_type = zipfile.ZIP_DEFLATED
            entry.external_attr = 0o644 << 16
            made.writestr(entry, data)
    print(path)


if __name__ == '__main__':
    main()
