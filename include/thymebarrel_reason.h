/* thymebarrel_reason.h: what an answer of the functions of thymebarrel.h means, in words. It stands alone, in C99 and C++11; nothing of it is in the
 * library, and a program that does not call it keeps nothing of it.
 *
 *     fprintf(stderr, "refused %u: %s\n", (unsigned)answer, thymebarrel_reason(answer));
 */
#ifndef THYMEBARREL_REASON_H
#define THYMEBARREL_REASON_H

/* A sentence in English; of a number that no function answers, an empty text. Never null, and not to be freed. */
static inline const char *thymebarrel_reason(unsigned answer)
{
    switch (answer) {
    case 0:
        return "Converted.";
    case 1:
        return "This is not one card: the first line must be BEGIN:VCARD, the last END:VCARD, and neither may stand anywhere else.";
    case 2:
        return "A card was not finished: the next BEGIN:VCARD or the end of the stream came before its END:VCARD.";
    case 3:
        return "Too large: a card may have 32,768 bytes and 512 lines (folded ones counted once), JSON 65,536 bytes, a stream 999,999 cards.";
    case 4:
        return "A line is not UTF-8, or has a control character other than tab.";
    case 5:
        return "A line is not NAME:value or NAME;PARAMETER=value:value; or it has over 32 parameters or 64 parameter values; or its name is BEGIN or END.";
    case 6:
        return "The line after BEGIN:VCARD is not VERSION:4.0.";
    case 7:
        return "A parameter may not stand here: UID and KIND take no group and no parameter (but VALUE=uri on UID), no line takes GROUP, and VALUE is one name.";
    case 8:
        return "A second VERSION, UID or KIND.";
    case 9:
        return "UID is empty, or KIND is empty or has other than letters, digits and hyphens.";
    case 10:
        return "The card has no FN line, the full name.";
    case 11:
        return "This is not JSON (RFC 8259) of depth 16 at most; or an object has two members of one name, or a string half a surrogate pair.";
    case 12:
        return "This JSON is no card of the rules: a member is missing, is not known inside its object, or has a value that no card gives.";
    case 13:
        return "A string in the JSON cannot stand in a vCard line.";
    case 14:
        return "The result is longer than the output that was lent.";
    case 15:
        return "The stem is not 1 to 200 characters of A-Z a-z 0-9 : - _, or the number is not 1 to 999,999.";
    case 16:
        return "A stream was called with a card buffer under 32,768 bytes, an output under 65,536, or a state out of its ranges (docs/STREAM.md).";
    case 255:
        return "No line answered yet: hand in more of the stream.";
    default:
        return "";
    }
}

/* What to do about it, or what to tell the sender; empty where nothing is to be done. */
static inline const char *thymebarrel_advice(unsigned answer)
{
    switch (answer) {
    case 1:
        return "Send one card at a time, whole, with nothing before or after it, not even an empty line.";
    case 2:
        return "Send the card again, with END:VCARD as its last line.";
    case 3:
        return "Leave out what is large, most often a picture or a key, or send a link to it.";
    case 4:
        return "Save the card as UTF-8, and take the control character out of this line.";
    case 5:
        return "Mend this line: names are letters, digits and hyphens, a colon goes before the value, and a long line goes on with a space in front.";
    case 6:
        return "Export the card as vCard 4.0. Versions 2.1 and 3.0 are not read.";
    case 7:
        return "Take this parameter, or the group before the name, out of this line.";
    case 8:
        return "A card has one of each: take this line out, or send two cards.";
    case 9:
        return "Give this line a value, or take it out: a card without UID gets one made.";
    case 10:
        return "Add a line FN: with the name as it is to be shown.";
    case 11:
        return "Mend the JSON at this byte. Place 0 may also mean equal names or half a surrogate pair anywhere.";
    case 12:
        return "Compare it with docs/RULES.md, To vCard. @type, version and uid must be there.";
    case 13:
        return "Take out control characters, double quotes in a parameter, or a surname that is also a secondary surname (a credential that is also a generation).";
    case 14:
        return "Lend more: 65,536 bytes are enough for JSON, 32,768 for a card.";
    case 15:
        return "This is a fault of the caller, not of the card: give another stem or number.";
    case 16:
        return "This is a fault of the caller: lend the full sizes, and hand in the state that the last call handed back.";
    default:
        return "";
    }
}

#endif
