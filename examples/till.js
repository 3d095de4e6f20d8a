// A till: it keeps label-print --stream running, writes a line for each label, and reads an answer for each.
// node till.js prints two labels by the printer at port 9175 of this computer; the second has a wrong check digit.
const { spawn } = require('node:child_process')
const { createInterface } = require('node:readline')

const words = '--stream --paper 60x40 --dpi 203 --to zpl --print tcp://localhost:9175'.split(' ')
const printer = spawn('label-print', words, { stdio: ['pipe', 'ignore', 'pipe'] })
const waiting = []
createInterface({ input: printer.stderr }).on('line', (line) => {
  if (!line.startsWith('label-print:')) waiting.shift()?.(line)
})
printer.on('close', () => waiting.forEach((answered) => answered('doubtful 0 label-print has ended')))

function print(line) {
  return new Promise((answered) => {
    waiting.push(answered)
    printer.stdin.write(line + '\n')
  })
}

async function sell(codes) {
  for (const code of codes) {
    const answer = await print('ean13 ' + code)
    const [word, number, ...rest] = answer.split(' ')
    if (word === 'taken') console.log(code, 'taken by the printer')
    else if (word === 'unsent') console.log(code, 'print it again later')
    else console.log(code, word + ':', rest.join(' '))
  }
  printer.stdin.end()
}

sell(['4006381333931', '4006381333932'])
