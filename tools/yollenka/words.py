"""The words for data objects, bits and codes, as the Books have them: written apart from crates/value_words, beside which
`checks/words` puts them.
"""
# The names of data objects (EMV 4.3 Book 3 Annex A, Book 1 section 11; ISO 7816-4 for frames), with the form in which a value is told.
TAGS = {
    '42': ('Issuer Identification Number (IIN)', 'n'),
    '4f': ('Application Dedicated File (ADF) Name', 'b'),
    '50': ('Application Label', 'a'),
    '57': ('Track 2 Equivalent Data', 'track'),
    '5a': ('Application Primary Account Number (PAN)', 'cn'),
    '61': ('Application Template', 'c'),
    '6f': ('File Control Information (FCI) Template', 'c'),
    '70': ('READ RECORD Response Message Template', 'c'),
    '71': ('Issuer Script Template 1', 'c'),
    '72': ('Issuer Script Template 2', 'c'),
    '73': ('Directory Discretionary Template', 'c'),
    '77': ('Response Message Template Format 2', 'c'),
    '80': ('Response Message Template Format 1', 'b'),
    '81': ('Amount, Authorised (Binary)', 'num'),
    '82': ('Application Interchange Profile', 'aip'),
    '83': ('Command Template', 'b'),
    '84': ('Dedicated File (DF) Name', 'b'),
    '86': ('Issuer Script Command', 'command'),
    '87': ('Application Priority Indicator', 'priority'),
    '88': ('Short File Identifier (SFI)', 'num'),
    '89': ('Authorisation Code', 'a'),
    '8a': ('Authorisation Response Code', 'arc'),
    '8c': ('Card Risk Management Data Object List 1 (CDOL1)', 'dol'),
    '8d': ('Card Risk Management Data Object List 2 (CDOL2)', 'dol'),
    '8e': ('Cardholder Verification Method (CVM) List', 'cvml'),
    '8f': ('Certification Authority Public Key Index, card', 'b'),
    '90': ('Issuer Public Key Certificate', 'b'),
    '91': ('Issuer Authentication Data', 'iaud'),
    '92': ('Issuer Public Key Remainder', 'b'),
    '93': ('Signed Static Application Data', 'b'),
    '94': ('Application File Locator (AFL)', 'afl'),
    '95': ('Terminal Verification Results', 'tvr'),
    '97': ('Transaction Certificate Data Object List (TDOL)', 'dol'),
    '98': ('Transaction Certificate (TC) Hash Value', 'b'),
    '99': ('Transaction Personal Identification Number (PIN) Data', 'b'),
    '9a': ('Transaction Date', 'date'),
    '9b': ('Transaction Status Information', 'tsi'),
    '9c': ('Transaction Type', 'type'),
    '9d': ('Directory Definition File (DDF) Name', 'b'),
    'a5': ('File Control Information (FCI) Proprietary Template', 'c'),
    'e1': ('request', 'c'),
    'e2': ('reply', 'c'),
    'e3': ('presentment', 'c'),
    'e4': ('reversal', 'c'),
    '5f20': ('Cardholder Name', 'a'),
    '5f24': ('Application Expiration Date', 'date'),
    '5f25': ('Application Effective Date', 'date'),
    '5f28': ('Issuer Country Code', 'code'),
    '5f2a': ('Transaction Currency Code', 'code'),
    '5f2d': ('Language Preference', 'a'),
    '5f30': ('Service Code', 'n'),
    '5f34': ('Application Primary Account Number (PAN) Sequence Number', 'n'),
    '5f36': ('Transaction Currency Exponent', 'n'),
    '5f50': ('Issuer URL', 'a'),
    '5f53': ('International Bank Account Number (IBAN)', 'a'),
    '5f54': ('Bank Identifier Code (BIC)', 'a'),
    '5f55': ('Issuer Country Code (alpha2 format)', 'a'),
    '5f56': ('Issuer Country Code (alpha3 format)', 'a'),
    '5f57': ('Account Type', 'n'),
    '9f01': ('Acquirer Identifier', 'n'),
    '9f02': ('Amount, Authorised (Numeric)', 'amount'),
    '9f03': ('Amount, Other (Numeric)', 'amount'),
    '9f04': ('Amount, Other (Binary)', 'num'),
    '9f05': ('Application Discretionary Data', 'b'),
    '9f06': ('Application Identifier (AID), terminal', 'b'),
    '9f07': ('Application Usage Control', 'auc'),
    '9f08': ('Application Version Number, card', 'b'),
    '9f09': ('Application Version Number, terminal', 'b'),
    '9f0b': ('Cardholder Name Extended', 'a'),
    '9f0d': ('Issuer Action Code, Default', 'bits'),
    '9f0e': ('Issuer Action Code, Denial', 'bits'),
    '9f0f': ('Issuer Action Code, Online', 'bits'),
    '9f10': ('Issuer Application Data', 'iad'),
    '9f11': ('Issuer Code Table Index', 'n'),
    '9f12': ('Application Preferred Name', 'a'),
    '9f13': ('Last Online Application Transaction Counter (ATC) Register', 'num'),
    '9f14': ('Lower Consecutive Offline Limit', 'num'),
    '9f15': ('Merchant Category Code', 'n'),
    '9f16': ('Merchant Identifier', 'a'),
    '9f17': ('Personal Identification Number (PIN) Try Counter', 'num'),
    '9f18': ('Issuer Script Identifier', 'b'),
    '9f1a': ('Terminal Country Code', 'code'),
    '9f1b': ('Terminal Floor Limit', 'num'),
    '9f1c': ('Terminal Identification', 'a'),
    '9f1d': ('Terminal Risk Management Data', 'b'),
    '9f1e': ('Interface Device (IFD) Serial Number', 'a'),
    '9f1f': ('Track 1 Discretionary Data', 'a'),
    '9f20': ('Track 2 Discretionary Data', 'n'),
    '9f21': ('Transaction Time', 'time'),
    '9f22': ('Certification Authority Public Key Index, terminal', 'b'),
    '9f23': ('Upper Consecutive Offline Limit', 'num'),
    '9f26': ('Application Cryptogram', 'b'),
    '9f27': ('Cryptogram Information Data', 'cid'),
    '9f2d': ('Integrated Circuit Card (ICC) PIN Encipherment Public Key Certificate', 'b'),
    '9f2e': ('Integrated Circuit Card (ICC) PIN Encipherment Public Key Exponent', 'b'),
    '9f2f': ('Integrated Circuit Card (ICC) PIN Encipherment Public Key Remainder', 'b'),
    '9f32': ('Issuer Public Key Exponent', 'b'),
    '9f33': ('Terminal Capabilities', 'caps'),
    '9f34': ('Cardholder Verification Method (CVM) Results', 'cvm'),
    '9f35': ('Terminal Type', 'kind'),
    '9f36': ('Application Transaction Counter (ATC)', 'num'),
    '9f37': ('Unpredictable Number', 'b'),
    '9f38': ('Processing Options Data Object List (PDOL)', 'dol'),
    '9f39': ('Point-of-Service (POS) Entry Mode', 'n'),
    '9f3a': ('Amount, Reference Currency', 'num'),
    '9f3b': ('Application Reference Currency', 'n'),
    '9f3c': ('Transaction Reference Currency Code', 'code'),
    '9f3d': ('Transaction Reference Currency Exponent', 'n'),
    '9f40': ('Additional Terminal Capabilities', 'more'),
    '9f41': ('Transaction Sequence Counter', 'n'),
    '9f42': ('Application Currency Code', 'code'),
    '9f43': ('Application Reference Currency Exponent', 'n'),
    '9f44': ('Application Currency Exponent', 'n'),
    '9f45': ('Data Authentication Code', 'b'),
    '9f46': ('Integrated Circuit Card (ICC) Public Key Certificate', 'b'),
    '9f47': ('Integrated Circuit Card (ICC) Public Key Exponent', 'b'),
    '9f48': ('Integrated Circuit Card (ICC) Public Key Remainder', 'b'),
    '9f49': ('Dynamic Data Authentication Data Object List (DDOL)', 'dol'),
    '9f4a': ('Static Data Authentication Tag List', 'b'),
    '9f4b': ('Signed Dynamic Application Data', 'b'),
    '9f4c': ('ICC Dynamic Number', 'b'),
    '9f4d': ('Log Entry', 'logentry'),
    '9f4e': ('Merchant Name and Location', 'a'),
    '9f4f': ('Log Format', 'dol'),
    'bf0c': ('File Control Information (FCI) Issuer Discretionary Data', 'c'),
    'df11': ('enciphered PIN block', 'b'),
}

# Terminal verification results (Book 3 Annex C5): BYTE times ten plus BIT.
TVR = {
    18: 'offline data authentication was not performed',
    17: 'offline static data authentication failed',
    16: 'ICC data missing',
    15: 'card appears on terminal exception file',
    14: 'offline dynamic data authentication failed',
    13: 'combined DDA and application cryptogram generation failed',
    12: 'static data authentication was selected',
    11: 'reserved',
    28: 'ICC and terminal have different application versions',
    27: 'expired application',
    26: 'application not yet effective',
    25: 'requested service not allowed for card product',
    24: 'new card',
    23: 'reserved',
    22: 'reserved',
    21: 'reserved',
    38: 'cardholder verification was not successful',
    37: 'unrecognised cardholder verification method',
    36: 'PIN Try Limit exceeded',
    35: 'PIN entry required and PIN pad not present or not working',
    34: 'PIN entry required, PIN pad present, but PIN was not entered',
    33: 'online PIN entered',
    32: 'reserved',
    31: 'reserved',
    48: 'transaction exceeds floor limit',
    47: 'lower consecutive offline limit exceeded',
    46: 'upper consecutive offline limit exceeded',
    45: 'transaction selected randomly for online processing',
    44: 'merchant forced transaction online',
    43: 'reserved',
    42: 'reserved',
    41: 'reserved',
    58: 'default TDOL used',
    57: 'issuer authentication failed',
    56: 'script processing failed before final GENERATE AC',
    55: 'script processing failed after final GENERATE AC',
    54: 'reserved',
    53: 'reserved',
    52: 'reserved',
    51: 'reserved',
}

# Transaction status information (Annex C6).
TSI = {
    18: 'offline data authentication',
    17: 'cardholder verification',
    16: 'card risk management',
    15: 'issuer authentication',
    14: 'terminal risk management',
    13: 'script processing',
}

# Application interchange profile (Annex C1).
AIP = {
    17: 'static data authentication',
    16: 'dynamic data authentication',
    15: 'cardholder verification',
    14: 'terminal risk management',
    13: 'issuer authentication',
    11: 'combined DDA and application cryptogram',
}

# Application usage control (Annex C2).
AUC = {
    18: 'domestic cash',
    17: 'international cash',
    16: 'domestic goods',
    15: 'international goods',
    14: 'domestic services',
    13: 'international services',
    12: 'ATMs',
    11: 'terminals other than ATMs',
    28: 'domestic cashback',
    27: 'international cashback',
}

# Terminal capabilities (Book 4 Annex A2).
CAPS = {
    18: 'manual key entry',
    17: 'magnetic stripe',
    16: 'IC with contacts',
    28: 'plaintext PIN for ICC verification',
    27: 'enciphered PIN for online verification',
    26: 'signature (paper)',
    25: 'enciphered PIN for offline verification',
    24: 'no CVM required',
    38: 'SDA',
    37: 'DDA',
    36: 'card capture',
    34: 'CDA',
}

# Additional terminal capabilities (Book 4 Annex A3), byte by byte from bit 8; reserved bits have no words.
MORE_CAPS = {
    10 * byte + 8 - place: word
    for byte, row in enumerate((
        ('cash', 'goods', 'services', 'cashback', 'inquiry', 'transfer', 'payment', 'administrative'),
        ('cash deposit',),
        ('numeric keys', 'alphabetic and special characters keys', 'command keys', 'function keys'),
        ('print (attendant)', 'print (cardholder)', 'display (attendant)', 'display (cardholder)', None, None, 'code table 10', 'code table 9'),
        tuple(f'code table {number}' for number in range(8, 0, -1))), start=1)
    for place, word in enumerate(row) if word
}

# Terminal types (Book 4 Annex A1).
KINDS = {
    '21': 'attended, online only',
    '22': 'attended, offline with online capability',
    '23': 'attended, offline only',
    '24': 'unattended, online only',
    '25': 'unattended, offline with online capability',
    '26': 'unattended, offline only',
}

# Transaction types (ISO 8583:1987).
TYPES = {
    '00': 'goods or services',
    '01': 'cash',
    '09': 'purchase with cashback',
}

# Cardholder verification methods: the low six bits (Book 3 Annex C3).
CVM = {
    0: 'fail CVM processing',
    1: 'plaintext PIN verified by the ICC',
    2: 'enciphered PIN verified online',
    3: 'plaintext PIN verified by the ICC, and signature',
    4: 'enciphered PIN verified by the ICC',
    5: 'enciphered PIN verified by the ICC, and signature',
    30: 'signature (paper)',
    31: 'no CVM required',
}

# Their conditions (Annex C3).
COND = {
    0: 'always',
    1: 'if unattended cash',
    2: 'if not unattended cash, not manual cash and not purchase with cashback',
    3: 'if the terminal supports it',
    4: 'if manual cash',
    5: 'if purchase with cashback',
    6: 'if in the application currency and under X',
    7: 'if in the application currency and over X',
    8: 'if in the application currency and under Y',
    9: 'if in the application currency and over Y',
}

# Their results (Book 4 Annex A4).
RESULT = {
    0: 'unknown',
    1: 'failed',
    2: 'successful',
}

# Kinds of cryptogram: the high two bits (Book 3 section 6.5.5).
AC = {
    0: 'AAC, declined',
    64: 'TC, approved',
    128: 'ARQC, the issuer decides',
    192: 'reserved',
}

# Card status update (Book 2 section 8.2.2), but its first bit.
UPDATE = {
    28: 'reset the totals',
    27: 'block the application',
    26: 'block the card',
    25: 'PIN tries to their limit',
}

# Authorisation response codes (Book 4 Annex A6).
ARC = {
    'Y1': 'offline approved',
    'Z1': 'offline declined',
    'Y3': 'unable to go online, offline approved',
    'Z3': 'unable to go online, offline declined',
    '00': 'approved',
    '05': 'not approved',
    '14': 'no such account',
    '51': 'not sufficient funds',
    '54': 'expired card',
    '55': 'incorrect PIN',
}

# Status words (Book 3 section 6.3.5, ISO 7816-4).
STATUS = {
    '9000': 'carried out',
    '6200': 'a warning without more information',
    '6283': 'the application is blocked',
    '6300': 'authentication failed',
    '6700': 'wrong length',
    '6983': 'the PIN is blocked: no try is left',
    '6984': 'the PIN is invalidated',
    '6985': 'conditions of use not satisfied',
    '6988': 'the MAC is wrong',
    '6a81': 'the card is blocked',
    '6a82': 'no such application or file',
    '6a83': 'no such record',
    '6a86': 'wrong P1 or P2',
    '6a88': 'no such data',
    '6d00': 'instruction not supported',
    '6e00': 'class not supported',
    '6f00': 'no precise diagnosis',
}

# Those that say more behind a command, by its instruction.
STATUS_OF = {
    ('b2', '6985'): 'no application is selected',
    ('a8', '6985'): 'no transaction counter is left, or the application is blocked',
    ('ca', '6985'): 'no application is selected',
    ('20', '6a88'): 'the card has no PIN',
    ('a4', '6a82'): 'no such application, or no further one',
    ('b2', '6a82'): 'no such file',
    ('20', '9000'): 'the PIN is right',
    ('82', '9000'): 'the response cryptogram is right',
    ('82', '6300'): 'the response cryptogram is wrong',
    ('ae', '6700'): 'the data are not as long as the card wants',
}

# Script commands by class, instruction, P1 and P2.
SCRIPT = {
    '841e0000': 'APPLICATION BLOCK',
    '84180000': 'APPLICATION UNBLOCK',
    '84160000': 'CARD BLOCK',
    '84240000': 'PIN UNBLOCK',
    '84240002': 'PIN CHANGE',
    '04dadf01': 'PUT DATA, limit of the number of offline approvals',
    '04dadf02': 'PUT DATA, limit of the sum of offline approvals',
}

# Commands of which the name alone is told, by class and instruction: the classes 84 and 8C are those of script commands.
NAMED = {
    '0084': 'GET CHALLENGE',
    '0088': 'INTERNAL AUTHENTICATE',
    '00b0': 'READ BINARY',
    '00c0': 'GET RESPONSE',
    '00d6': 'UPDATE BINARY',
    '00dc': 'UPDATE RECORD',
    '04da': 'PUT DATA',
    '04dc': 'UPDATE RECORD',
    '8416': 'CARD BLOCK',
    '8418': 'APPLICATION UNBLOCK',
    '841e': 'APPLICATION BLOCK',
    '8424': 'PIN CHANGE/UNBLOCK',
    '8c16': 'CARD BLOCK',
    '8c1e': 'APPLICATION BLOCK',
    '8c24': 'PIN CHANGE/UNBLOCK',
}

# The steps of a transaction.
STEP = {
    'power': 'powering up the card',
    'select': 'selecting an application',
    'initiate': 'GET PROCESSING OPTIONS',
    'read': 'reading the records',
    'verify': 'verifying the cardholder',
    'risk': 'terminal risk management',
    'first': 'the first GENERATE AC',
    'authenticate': 'EXTERNAL AUTHENTICATE',
    'script': 'the scripts before the second GENERATE AC',
    'second': 'the second GENERATE AC',
}

# Why a terminal ends a transaction.
CAUSE = {
    'no-candidate': 'no application is left',
    'card-blocked': 'the card is blocked (6A81)',
    'answer': 'the answer has fewer than 2 or more than 258 bytes',
    'status': 'the answer has this status, where only 9000 goes on',
    'coding': 'the body is not of the form that it must have; the place is counted from its first byte',
    'repeated': 'the card gives this object twice',
    'missing': 'this object is not there',
    'value': 'this object has a wrong length or content',
    'afl': 'this group of the file locator is wrong (0: its length)',
    'dol': 'this object list cannot be read, or wants more than 252 bytes',
    'too-much': 'more than 512 objects or 16,384 bytes',
    'kind': 'the card may not answer this kind of cryptogram',
}

# Why a document is refused.
REFUSED = {
    '1': 'the bytes are no TOML document',
    '2': 'a key without a default is absent',
    '3': 'another type, a character that may not stand there, or an excluded content',
    '4': 'a number, a length or an array beyond its limit',
    '5': 'a key that the table does not have',
    '6': 'a card or a lane that is not there',
}

# Messages in the style of ISO 8583:1987, by their type.
MESSAGES = {
    '0100': 'request',
    '0110': 'reply to a request',
    '0220': 'presentment',
    '0230': 'reply to a presentment',
    '0400': 'reversal',
    '0410': 'reply to a reversal',
}

# Their fields, but field 55, which is told by its objects.
FIELDS = {
    2: 'account number',
    3: 'processing code',
    4: 'amount',
    11: 'system trace audit number (9F36)',
    37: 'retrieval reference number',
    39: 'response code',
    41: 'terminal',
    49: 'currency',
    52: 'enciphered PIN block',
}
