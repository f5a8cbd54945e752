"""Checks of the page that microscope/ceph makes of logs, in a headless Chromium."""
from __future__ import annotations

import os
import time
from tempfile import TemporaryDirectory

from browser import Browser
from ceph_texts import paths, told
from checking import Failed, equal

SCENARIO = 'pacific_stopped_leader'
WIDTHS = (390, 640, 1024, 1920)


def opened(browser: Browser, path: str):
    browser.call('Page.navigate', url=f'file://{path}')
    browser.until('document.readyState === "complete" && !!document.querySelector("#lanes svg")')


def is_sound(browser: Browser):
    equal(browser.errors, [])
    equal(browser.is_wider(), False, 'the page is wider than its window')


def fits_each_window(browser: Browser):
    for width in WIDTHS:
        for is_dark in (False, True):
            browser.looks(width, 900, is_dark)
            time.sleep(0.2)
            is_sound(browser)
    lanes = browser.of_page('document.querySelectorAll("#lanes rect").length')
    if lanes < 9:
        raise Failed(f'the overview has {lanes} parts')


def leads_to_events(browser: Browser):
    """A place of the story, a mark of the overview, and the chart lead to the event's row; a fold opens."""
    browser.looks(1200, 900)
    browser.click('#happened a.to')
    first = browser.of_page('document.querySelector("tr.here").id')
    browser.of_page('document.querySelector("#lanes circle.wins").dispatchEvent(new Event("click"))')
    second = browser.of_page('document.querySelector("tr.here").id')
    if first == second or not second.startswith('e'):
        raise Failed(f'the place leads to {first}, and the mark to {second}')
    equal(browser.of_page('document.querySelector(".fold + tbody").hidden'), True)
    browser.click('.fold button')
    equal(browser.of_page('document.querySelector(".fold + tbody").hidden'), False)
    is_sound(browser)


def shows_a_part(browser: Browser):
    """A part of the overview leaves the rows of its time, and `all` brings the others back."""
    rows = 'document.querySelectorAll("#table tr[id]:not([hidden])").length'
    whole = browser.of_page(rows)
    browser.of_page('look(LOG.begin, LOG.begin + (LOG.end - LOG.begin) / 4)')
    part = browser.of_page(rows)
    browser.click('#whole')
    equal(browser.of_page(rows), whole)
    if not 0 < part < whole:
        raise Failed(f'{part} of {whole} rows')
    is_sound(browser)


def is_driven():
    with TemporaryDirectory() as folder, Browser() as browser:
        status, output, errors = told('page', paths(SCENARIO), '--title', 'A <leader> is paused')
        equal((status, errors.startswith('Logs of mon.a'), 'A &lt;leader&gt; is paused' in output), (1, True, True))
        path = os.path.join(folder, 'page.html')
        with open(path, 'w', encoding='utf-8') as file:
            file.write(output)
        opened(browser, path)
        fits_each_window(browser)
        leads_to_events(browser)
        shows_a_part(browser)


def checks_of_page(check):
    check('the page is driven in a browser', is_driven)
