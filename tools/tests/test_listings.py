"""The listings of docs/listings/LAYER.md: what a page shows is what the sources have, and a page that differs is found out."""
import os
import unittest

from explain import listings, pages
from running import guard

SOURCE = '''// Two parts.
use masm::code;

/// The first.
const ONE: [Inst; 2] = code! {
    lw T0, 0(ZERO);     // a word
    eret;
};

// The second, with another
// in it.
pub fn two(map: &Map) -> Code
    ensures { result ≡ words }
{
    words_are_encodings();
    block! {
        code ONE;
        when T0 {
            eret;
        }
    }
}

fn three() -> u32 {
    3
}

// The fourth, by a loop.
fn four() -> Block<31> {
    let mut code = Block::<31>::new();
    for n in 0..31u32 {
        code.push(instruction!(sw n + 1, (VARIABLES + 4 * n)(ZERO)));
    }
    code
}
'''


class Listings(unittest.TestCase):
    def test_a_list_and_a_block(self):
        self.assertEqual(listings.item(SOURCE, 'ONE'), ('The first.', ['    lw T0, 0(ZERO);     // a word', '    eret;']))
        self.assertEqual(listings.item(SOURCE, 'two'), ('The second, with another in it.', ['    code ONE;', '    when T0 {', '        eret;', '    }']))

    def test_a_block_that_a_loop_makes(self):
        self.assertEqual(listings.item(SOURCE, 'four'), ('The fourth, by a loop.', ['    for n in 0..31u32 {', '        sw n + 1, (VARIABLES + 4 * n)(ZERO);', '    }']))

    def test_what_is_no_block(self):
        self.assertIsNone(listings.item(SOURCE, 'three'))
        self.assertIsNone(listings.item(SOURCE, 'five'))

    def test_a_number_of_a_lower_crate(self):
        self.assertEqual(listings.written('layer_map::BLOCKS'), '0xc000')
        self.assertEqual(listings.written('layer_map::NONE'), 'layer_map::NONE')
        self.assertEqual(listings.written('0xe000'), '0xe000')

    def test_the_page_shows_the_sources(self):
        page = pages.page('listings/LAYER.md')
        self.assertTrue(len(listings.MARK.findall(page)) > 10)
        self.assertEqual(listings.made(page), page)

    def test_another_instruction_is_found_out(self):
        page = pages.page('listings/LAYER.md')
        for shown, other in (('sw ZERO, 0(LIST);', 'sw LEFT, 0(LIST);'), ('| PAGE | 16 |', '| PAGE | 17 |')):
            self.assertEqual(page.count(shown), 1)
            self.assertEqual(listings.made(page.replace(shown, other)), page)

    def test_a_name_that_is_gone(self):
        for words in ('code frame_table/src/evicting.rt gone', 'code no_crate/src/lib.rt gone', 'names frame_table/src/lib.rt'):
            with self.assertRaises(guard.Bad):
                listings.made('<!-- tools/dev/listings: %s -->\n<!-- tools/dev/listings: end -->' % words)

    def test_each_list_of_the_way_of_a_fault_is_shown(self):
        """No list that the handler, the block, the eviction or a swap names is left out."""
        page = pages.page('listings/LAYER.md')
        for name in ('trap_entry/src/handler.rt', 'trap_entry/src/leaving.rt', 'page_fault/src/block.rt', 'frame_table/src/evicting.rt', 'frame_table/src/page_table.rt', 'swap_layer/src/swap.rt'):
            with open(os.path.join(pages.TOP, 'crates', name), encoding='utf-8') as file:
                text = file.read()
            for line in text.split('\n'):
                if line.startswith('const ') and '[Inst; ' in line:
                    self.assertIn('\n%s:\n' % line.split()[1].rstrip(':'), page)


if __name__ == '__main__':
    unittest.main()
