#!/usr/bin/env python3
"""Prints texts in a user's languages. Run it at the top of the repository, with bindings/python in PYTHONPATH."""
from kozhvadi import Localization, MissingMessageError

texts = Localization.load('examples/l10n', 'main.ftl', ['de-AT', 'fr'], default='en-US', isolating=False)
for id in ['welcome', 'thanks', 'bye', 'nothing']:
    try:
        print(texts.format(id, name='Jane'))
    except MissingMessageError:
        print(f'{id} is missing')
