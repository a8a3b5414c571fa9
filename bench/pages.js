// What players.html and players-live.html share: the segments of an MPD with SegmentLists or SegmentTemplates, and the number of a frame.

// ---- an MPD

const children = (node, name) => [...node.children].filter(child => child.localName === name)
const value = (node, name, otherwise) => node.hasAttribute(name) ? Number(node.getAttribute(name)) : otherwise
const seconds = text => {
    const [, hours, minutes, rest] = /^PT(?:(\d+)H)?(?:(\d+)M)?(?:([\d.]+)S)?$/.exec(text)
    return 3600 * (hours || 0) + 60 * (minutes || 0) + Number(rest || 0)
}

// $$ is a dollar sign, $Number$ the number, $Number%05d$ the number with five digits or more.
const named = (text, number) => text.replace(/\$(?:Number(?:%0(\d+)d)?)?\$/g,
    (whole, digits) => whole === "$$" ? "$" : String(number).padStart(digits || 0, "0"))

// When the segments of a SegmentTimeline begin and end, in ticks.
const timed = timeline => {
    let at = 0
    return children(timeline, "S").flatMap(s => {
        at = value(s, "t", at)
        return Array.from({length: 1 + value(s, "r", 0)}, () => ({start: at, end: at += value(s, "d", 0)}))
    })
}

// The init segment and then the segments, each with its URL and its range.
const templated = template => {
    const numbers = timed(children(template, "SegmentTimeline")[0]).map((_, k) => value(template, "startNumber", 1) + k)
    return [template.getAttribute("initialization"), ...numbers.map(() => template.getAttribute("media"))]
        .map((text, k) => ({url: named(text, numbers[k - 1]), range: null}))
}
const listed = list => [
    ...children(list, "Initialization").map(it => ({url: it.getAttribute("sourceURL"), range: it.getAttribute("range")})),
    ...children(list, "SegmentURL").map(it => ({url: it.getAttribute("media"), range: it.getAttribute("mediaRange")})),
]

// A Representation: its type, when its media's time 0 is, its parts, and when its segments begin and end, in seconds of the presentation.
const track = (period, set) => {
    const representation = children(set, "Representation")[0]
    const [template] = children(representation, "SegmentTemplate"), node = template || children(representation, "SegmentList")[0]
    const scale = value(node, "timescale", 1)
    const offset = seconds(period.getAttribute("start")) - value(node, "presentationTimeOffset", 0) / scale
    return {
        type: `${set.getAttribute("mimeType")}; codecs="${representation.getAttribute("codecs")}"`,
        offset,
        parts: template ? templated(template) : listed(node),
        times: timed(children(node, "SegmentTimeline")[0])
            .map(({start, end}) => ({start: offset + start / scale, end: offset + end / scale})),
    }
}
const root = text => new DOMParser().parseFromString(text, "application/xml").documentElement
const periods = mpd => children(mpd, "Period").map(period => children(period, "AdaptationSet").map(set => track(period, set)))

const part = async ({url, range}) => {
    const got = await fetch(url, range ? {headers: {Range: "bytes=" + range}} : {})
    return got.ok ? got.arrayBuffer() : Promise.reject(`${got.status} ${url}`)
}

// ---- frames

// The number that is drawn into a frame, as boxes of its bits, of a picture of so many pixels' width.
const number = (colours, width, bits) => {
    const side = width / bits
    return Array.from({length: bits}, (_, k) => colours[4 * (width * 10 + side * k + side / 2)] > 127 ? 2 ** k : 0)
        .reduce((sum, bit) => sum + bit)
}
