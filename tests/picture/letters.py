"""How wide a drawn text is: the advance widths of the letters of ASCII, from the space on, in thousandths of the font's size.

Of each letter it is the wider of DejaVu Sans 2.37 and Liberation Sans 1.07, as their tables hmtx have it, rounded up; likewise of the bold ones. DejaVu Sans
is about the widest sans-serif font that systems choose by themselves. A letter beyond ASCII is taken for as wide as the font is high.
"""
PLAIN = (
    318, 401, 460, 838, 637, 951, 780, 275, 391, 391, 500, 838, 318, 361, 318, 337, 637, 637, 637, 637, 637, 637, 637, 637, 637, 637, 337, 337, 838,
    838, 838, 557, 1016, 685, 687, 723, 771, 667, 611, 778, 752, 295, 500, 667, 558, 863, 749, 788, 667, 788, 723, 667, 611, 732, 685, 989, 686, 667,
    686, 391, 337, 391, 838, 557, 500, 613, 635, 550, 635, 616, 353, 635, 634, 278, 278, 580, 278, 975, 634, 612, 635, 635, 412, 521, 393, 634, 592,
    818, 592, 592, 525, 637, 337, 637, 838,
)
BOLD = (
    349, 457, 521, 838, 696, 1002, 873, 307, 458, 458, 523, 838, 380, 416, 380, 366, 696, 696, 696, 696, 696, 696, 696, 696, 696, 696, 400, 400, 838,
    838, 838, 611, 1000, 774, 763, 734, 831, 684, 684, 821, 837, 373, 557, 775, 638, 996, 837, 851, 733, 851, 771, 721, 683, 813, 774, 1104, 771,
    725, 726, 458, 366, 458, 838, 557, 500, 675, 716, 593, 716, 679, 436, 716, 712, 343, 343, 666, 343, 1042, 712, 688, 716, 716, 494, 596, 479, 712,
    652, 924, 646, 652, 583, 712, 366, 712, 838,
)
# A letter of DejaVu Sans Mono.
MONOSPACE = 603


def width(text, size, face):
    """The width of a text in pixels; face is PLAIN, BOLD or MONOSPACE."""
    return size * sum(1000 if letter > "~" else MONOSPACE if face is MONOSPACE else face[ord(letter) - 32] for letter in text) / 1000
