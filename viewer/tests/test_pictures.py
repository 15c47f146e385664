"""The pictures of docs/pictures are what the page shows: they are made anew and compared, point by point."""
from __future__ import annotations

import base64
import json
import pathlib
import sys
import tempfile
import unittest

sys.path.insert(0, str(pathlib.Path(__file__).parent))
import browser
import pictures

# The part of all points that differ much, or 1 where the two have different sizes.
DIFFERENCE = """
(async () => {
  const [one, other] = await Promise.all(%s.map(async data => {
    const image = new Image();
    image.src = 'data:image/png;base64,' + data;
    await image.decode();
    const canvas = Object.assign(document.createElement('canvas'), {width: image.width, height: image.height});
    canvas.getContext('2d').drawImage(image, 0, 0);
    return canvas.getContext('2d').getImageData(0, 0, image.width, image.height);
  }));
  if (one.width !== other.width || one.height !== other.height) return 1;
  let count = 0;
  for (let at = 0; at < one.data.length; at += 4) {
    if ([0, 1, 2].some(colour => Math.abs(one.data[at + colour] - other.data[at + colour]) > 40)) count += 1;
  }
  return count / (one.width * one.height);
})()
"""


@unittest.skipUnless(browser.chromium(), "no Chromium")
class Pictures(unittest.TestCase):
    """What stands in the documents."""

    def test_each_picture_is_what_the_page_shows(self) -> None:
        with tempfile.TemporaryDirectory() as folder, browser.Browser() as page:
            pictures.shoot(page, pathlib.Path(folder))
            page.open("about:blank")
            for name, *_ in pictures.SHOTS:
                with self.subTest(name):
                    both = [base64.b64encode((at / name).read_bytes()).decode() for at in (pathlib.Path(folder), pictures.PICTURES)]
                    # (fonts differ a little from machine to machine)
                    self.assertLess(page.run(DIFFERENCE % json.dumps(both)), 0.04, "run viewer/tests/pictures.py")
            self.assertEqual(sorted(name for name, *_ in pictures.SHOTS), sorted(path.name for path in pictures.PICTURES.iterdir()))


if __name__ == "__main__":
    unittest.main()
