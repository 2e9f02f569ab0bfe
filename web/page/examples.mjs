/** The cases that the page offers. Those with a folder are made of the files of examples/ when the page is built. */
export const EXAMPLES = [
  {
    title: 'A price and a tax: no line changes twice, and yet they interfere',
    says: 'A changes the price, B adds a tax on the total. Merged by lines, the tax would be one that neither of them has seen.',
    folder: 'price_and_tax',
  },
  {
    title: 'A mean and a product: both are kept',
    says: 'Two people add something to one loop. Whatever the state, the merged program ends with what each of them computes.',
    folder: 'mean_and_product',
  },
  {
    title: 'Two changes side by side, which git calls a conflict',
    says: 'Lines next to each other change, so a merge by lines stops. What they compute has nothing to do with each other.',
    base: 'program\nissued 1:2\n1.1: width := 3;\n1.2: height := 4;\nend(height, width)\n',
    variants: ['program\nissued 1:2\n1.1: width := 30;\n1.2: height := 4;\nend(height, width)\n', 'program\nissued 1:2\n1.1: width := 3;\n1.2: height := 40;\nend(height, width)\n'],
  },
  {
    title: 'A part that one changed and the other still reads',
    says: 'A changes x, B adds a part that reads x as it was. Both contents are in the merged program: one of them under a new tag, of author 0.',
    base: 'program\nissued 1:2\n1.1: x := 1;\n1.2: z := x;\nend(z)\n',
    variants: ['program\nissued 1:2\n1.1: x := 2;\n1.2: z := x;\nend(z)\n', 'program\nissued 1:2, 3:1\n1.1: x := 1;\n1.2: z := x;\n3.1: y := x;\nend(y, z)\n'],
  },
  {
    title: 'A part that one deleted and the other needs: no program',
    says: 'A takes a part away, and B newly reads what it gave. Neither changes what the other computes, but no program has both.',
    base: 'program\nissued 1:1\n1.1: x := 1;\nend(x)\n',
    variants: ['program\nissued 1:1\nend(x)\n', 'program\nissued 1:1, 3:1\n1.1: x := 1;\n3.1: y := x;\nend(x, y)\n'],
  },
  {
    title: 'Two writes: which comes first?',
    says: 'Both add a write to the output. What is written is one list, so either of them would change the other’s.',
    base: 'program\n1.1: write 1;\nend(out)\n',
    variants: ['program\n1.1: write 1;\n2.1: write 2;\nend(out)\n', 'program\n1.1: write 1;\n3.1: write 3;\nend(out)\n'],
  },
  {
    title: 'A sieve in an array: the sum and the last of the primes',
    says: 'Both read the base’s array and neither stores into it, so the merge does both.',
    folder: 'sieve',
  },
  {
    title: 'One side alone changed',
    says: 'B is the base as it was. The merge is A.',
    folder: 'assignments',
  },
  {
    title: 'Three people',
    says: 'Any number of variants up to sixteen is merged at once.',
    base: 'program\nissued 1:2\n1.1: x := 6;\n1.2: y := x + 1;\nend(y)\n',
    variants: [
      'program\nissued 1:2, 2:1\n1.1: x := 6;\n1.2: y := x + 1;\n2.1: double := x * 2;\nend(double, y)\n',
      'program\nissued 1:2, 3:1\n1.1: x := 6;\n1.2: y := x + 1;\n3.1: square := x * x;\nend(square, y)\n',
      'program\nissued 1:2, 4:2\n1.1: x := 6;\n1.2: y := x + 1;\n4.1: if y > x then\n  4.2: greater := 1;\nfi\nend(greater, y)\n',
    ],
  },
];
