"""What a unit file and a card file tell, read by the data types of Annex IB, Appendix 1, and apart from the program."""
import datetime

# Records: fields by their name, their bytes, and how they are shown.
# n a number, x bytes, t a time, c characters, m a code page and characters, k a card, r a registration, h a holder's names,
# s a number for each byte, =NAME a code, @NAME a record
TABLES = {
    "certificates": "memberStateCertificate:194x vuCertificate:194x",
    "vehicle": "vehicleIdentificationNumber:17c vehicleRegistrationIdentification:15r currentDateTime:4t vuDownloadablePeriod:8@period"
               " cardSlotsStatus:1n vuDownloadActivityData:58@download",
    "period": "minDownloadableTime:4t maxDownloadableTime:4t",
    "download": "downloadingTime:4t fullCardNumber:18k companyOrWorkshopName:36m",
    "lock": "lockInTime:4t lockOutTime:4t companyName:36m companyAddress:36m companyCardNumber:18k",
    "control": "controlType:1n controlTime:4t controlCardNumber:18k downloadPeriodBeginDate:4t downloadPeriodEndDate:4t",
    "signature": "signature:128x",
    "day": "timeReal:4t odometerValueMidnight:3n",
    "insertion": "cardHolderName:72h fullCardNumber:18k cardExpiryDate:4t cardInsertionTime:4t vehicleOdometerValueAtInsertion:3n"
                 " cardSlotNumber:1=slot cardWithdrawalTime:4t vehicleOdometerValueAtWithdrawal:3n previousVehicleInfo:19@previous"
                 " manualInputFlag:1=manual",
    "previous": "vehicleRegistrationIdentification:15r cardWithdrawalTime:4t",
    "unit place": "fullCardNumber:18k placeRecord:10@place",
    "place": "entryTime:4t entryTypeDailyWorkPeriod:1=entry dailyWorkPeriodCountry:1=nation dailyWorkPeriodRegion:1n"
             " vehicleOdometerValue:3n",
    "condition": "entryTime:4t specificConditionType:1=condition",
    "unit fault": "faultType:1=event faultRecordPurpose:1=purpose faultBeginTime:4t faultEndTime:4t cardNumberDriverSlotBegin:18k"
                  " cardNumberCodriverSlotBegin:18k cardNumberDriverSlotEnd:18k cardNumberCodriverSlotEnd:18k",
    "unit event": "eventType:1=event eventRecordPurpose:1=purpose eventBeginTime:4t eventEndTime:4t cardNumberDriverSlotBegin:18k"
                  " cardNumberCodriverSlotBegin:18k cardNumberDriverSlotEnd:18k cardNumberCodriverSlotEnd:18k similarEventsNumber:1n",
    "over control": "lastOverspeedControlTime:4t firstOverspeedSince:4t numberOfOverspeedSince:1n",
    "over": "eventType:1=event eventRecordPurpose:1=purpose eventBeginTime:4t eventEndTime:4t maxSpeedValue:1n averageSpeedValue:1n"
            " cardNumberDriverSlotBegin:18k similarEventsNumber:1n",
    "adjustment": "oldTimeValue:4t newTimeValue:4t workshopName:36m workshopAddress:36m workshopCardNumber:18k",
    "block": "speedBlockBeginDate:4t speedsPerSecond:60s",
    "unit": "vuManufacturerName:36m vuManufacturerAddress:36m vuPartNumber:16c vuSerialNumber:8x vuSoftwareIdentification:8@software"
            " vuManufacturingDate:4t vuApprovalNumber:8c",
    "software": "vuSoftwareVersion:4c vuSoftInstallationDate:4t",
    "sensor": "sensorSerialNumber:8x sensorApprovalNumber:8c sensorPairingDateFirst:4t",
    "calibration": "calibrationPurpose:1=calibration workshopName:36m workshopAddress:36m workshopCardNumber:18k"
                   " workshopCardExpiryDate:4t vehicleIdentificationNumber:17c vehicleRegistrationIdentification:15r"
                   " wVehicleCharacteristicConstant:2n kConstantOfRecordingEquipment:2n lTyreCircumference:2n tyreSize:15c"
                   " authorisedSpeed:1n oldOdometerValue:3n newOdometerValue:3n oldTimeValue:4t newTimeValue:4t nextCalibrationDate:4t",
    "icc": "clockStop:1n cardExtendedSerialNumber:8x cardApprovalNumber:8c cardPersonaliserID:1n embedderIcAssemblerId:5x icIdentifier:2x",
    "ic": "icSerialNumber:4x icManufacturingReferences:4x",
    "application": "typeOfTachographCardId:1=equipment cardStructureVersion:2x noOfEventsPerType:1n noOfFaultsPerType:1n"
                   " activityStructureLength:2n noOfCardVehicleRecords:2n noOfCardPlaceRecords:1n",
    "certificate": "certificate:194x",
    "identification": "cardIdentification:65@card driverCardHolderIdentification:78@holder",
    "card": "cardIssuingMemberState:1=nation cardNumber:16c cardIssuingAuthorityName:36m cardIssueDate:4t cardValidityBegin:4t"
            " cardExpiryDate:4t",
    "holder": "cardHolderName:72h cardHolderBirthDate:4x cardHolderPreferredLanguage:2c",
    "last download": "lastCardDownload:4t",
    "licence": "drivingLicenceIssuingAuthority:36m drivingLicenceIssuingNation:1=nation drivingLicenceNumber:16c",
    "card event": "eventType:1=event eventBeginTime:4t eventEndTime:4t eventVehicleRegistration:15r",
    "card fault": "faultType:1=event faultBeginTime:4t faultEndTime:4t faultVehicleRegistration:15r",
    "use": "vehicleOdometerBegin:3n vehicleOdometerEnd:3n vehicleFirstUse:4t vehicleLastUse:4t vehicleRegistration:15r vuDataBlockCounter:2x",
    "current use": "sessionOpenTime:4t sessionOpenVehicle:15r",
    "card day": "activityPreviousRecordLength:2n activityRecordLength:2n activityRecordDate:4t activityDailyPresenceCounter:2x"
                " activityDayDistance:2n",
    "card control": "controlType:1n controlTime:4t controlCardNumber:18k controlVehicleRegistration:15r controlDownloadPeriodBegin:4t"
                    " controlDownloadPeriodEnd:4t",
}


def fields_of(table):
    """The fields of a table, each with its name, its bytes and how it is shown."""
    for field in table.split():
        name, how = field.split(":")
        digits = len(how) - len(how.lstrip("0123456789"))
        yield name, int(how[:digits]), how[digits:]


RECORDS = {name: list(fields_of(table)) for name, table in TABLES.items()}
WIDTHS = {name: sum(width for _, width, _ in fields) for name, fields in RECORDS.items()}

# Codes: the names of the numbers from the one in front on.
CODES = {
    "event": {
        0x00: "noFurtherDetails insertionOfANonValidCard cardConflict timeOverlap drivingWithoutAnAppropriateCard cardInsertionWhileDriving"
              " lastCardSessionNotCorrectlyClosed overSpeeding powerSupplyInterruption motionDataError",
        0x10: "noFurtherDetails motionSensorAuthenticationFailure tachographCardAuthenticationFailure unauthorisedChangeOfMotionSensor"
              " cardDataInputIntegrityError storedUserDataIntegrityError internalDataTransferError unauthorisedCaseOpening hardwareSabotage",
        0x20: "noFurtherDetails authenticationFailure storedDataIntegrityError internalDataTransferError unauthorisedCaseOpening"
              " hardwareSabotage",
        0x30: "noFurtherDetails vuInternalFault printerFault displayFault downloadingFault sensorFault",
        0x40: "noFurtherDetails",
    },
    "purpose": {0: "oneOfThe10MostRecent longestOfOneOfTheLast10Days oneOfThe5LongestOverTheLast365Days lastOfOneOfTheLast10Days"
                   " mostSeriousOfOneOfTheLast10Days oneOfThe5MostSeriousOverTheLast365Days firstAfterTheLastCalibration activeOrOnGoing"},
    "calibration": {0: "reserved activation firstInstallation installation periodicInspection"},
    "slot": {0: "driverSlot coDriverSlot"},
    "manual": {0: "noEntry manualEntries"},
    "entry": {0: "begin end beginManuallyEntered endManuallyEntered beginAssumedByVu endAssumedByVu"},
    "condition": {1: "outOfScopeBegin outOfScopeEnd ferryTrainCrossing"},
    "equipment": {0: "reserved driverCard workshopCard controlCard companyCard manufacturingCard vehicleUnit motionSensor"},
    "nation": {
        0x01: "A AL AND ARM AZ B BG BIH BY CH CY CZ D DK E EST F FIN FL FR UK GE GR H HR I IRL IS KZ L LT LV M MC MD MK N NL P PL RO RSM"
              " RUS S SK SLO TM TR UA V YU",
        0xFD: "EC EUR WLD",
    },
}
MEANINGS = {coding: {first + n: name for first, names in runs.items() for n, name in enumerate(names.split())} for coding, runs in CODES.items()}
MEANINGS["nation"][0] = "noInformationAvailable"
for own in range(0x80, 0x100):
    MEANINGS["event"][own] = MEANINGS["purpose"][own] = "manufacturerSpecific"


def number(data):
    return int.from_bytes(data, "big")


def code(coding, value):
    return {"code": value, "name": MEANINGS[coding].get(value)}


def characters(data):
    return data.rstrip(b" ").decode("latin-1")


def text(data):
    return {"codePage": data[0], "text": characters(data[1:])} if any(data) else None


def value(how, data):
    """What a field tells."""
    kind, name = how[0], how[1:]
    if kind == "n":
        return number(data)
    if kind == "x":
        return data.hex()
    if kind == "s":
        return list(data)
    if kind == "=":
        return code(name, data[0])
    if not any(data):
        return None
    if kind == "t":
        return (datetime.datetime(1970, 1, 1) + datetime.timedelta(seconds=number(data))).strftime("%Y-%m-%dT%H:%M:%SZ")
    if kind == "c":
        return characters(data)
    if kind == "m":
        return text(data)
    if kind == "k":
        return {"cardType": code("equipment", data[0]), "cardIssuingMemberState": code("nation", data[1]), "cardNumber": characters(data[2:])}
    if kind == "r":
        return {"vehicleRegistrationNation": code("nation", data[0]), "vehicleRegistrationNumber": text(data[1:])}
    if kind == "h":
        return {"holderSurname": text(data[:36]), "holderFirstNames": text(data[36:])}
    return record(name, data)


class Reader:
    """Bytes that are read from the front."""

    def __init__(self, data):
        self.data, self.at = data, 0

    def take(self, count):
        if self.at + count > len(self.data):
            raise ValueError(f"{count} bytes at {self.at} of {len(self.data)}")
        self.at += count
        return self.data[self.at - count : self.at]


def record(name, data):
    """The fields of a record."""
    reader = Reader(data)
    return {field: value(how, reader.take(width)) for field, width, how in RECORDS[name]}


def entry(name, data):
    """A record of a list, None where all is 0."""
    return record(name, data) if any(data) else None


def entries(name, count, reader):
    return [entry(name, reader.take(WIDTHS[name])) for _ in range(count)]


def counted(name, width, reader):
    return entries(name, number(reader.take(width)), reader)


def whole(name, data):
    """As many records as there are."""
    return entries(name, len(data) // WIDTHS[name], Reader(data))


def change(word, on_card):
    activity = ["rest", "available", "work", "drive"][word >> 11 & 3]
    return {"minute": word & 2047, "slot": "codriver" if word >> 15 else "driver", "byHand" if on_card and word >> 13 & 1 else "crew": bool(word >> 14 & 1),
            "present": not word >> 13 & 1, "activity": activity}


def changes(data, on_card):
    return [change(number(data[n : n + 2]), on_card) for n in range(0, len(data) - 1, 2)]


def overview(reader):
    return {**record("certificates", reader.take(388)), **record("vehicle", reader.take(103)),
            "vuCompanyLocksRecords": counted("lock", 1, reader), "vuControlActivityRecords": counted("control", 1, reader)}


def activities(reader):
    return {**record("day", reader.take(7)), "vuCardIWRecords": counted("insertion", 2, reader),
            "activityChangeInfos": changes(reader.take(2 * number(reader.take(2))), False),
            "vuPlaceDailyWorkPeriodRecords": counted("unit place", 1, reader), "specificConditionRecords": counted("condition", 2, reader)}


def events(reader):
    return {"vuFaultRecords": counted("unit fault", 1, reader), "vuEventRecords": counted("unit event", 1, reader),
            "vuOverSpeedingControlData": record("over control", reader.take(9)), "vuOverSpeedingEventRecords": counted("over", 1, reader),
            "vuTimeAdjustmentRecords": counted("adjustment", 1, reader)}


def speeds(reader):
    return {"vuDetailedSpeedBlocks": counted("block", 2, reader)}


def technical(reader):
    return {"vuIdentification": record("unit", reader.take(116)), "sensorPaired": record("sensor", reader.take(20)),
            "vuCalibrationRecords": counted("calibration", 1, reader)}


MESSAGES = {1: ("overview", overview), 2: ("activities", activities), 3: ("eventsAndFaults", events), 4: ("detailedSpeed", speeds),
            5: ("technicalData", technical)}


def unit(data):
    """A unit file."""
    reader, messages = Reader(data), []
    while reader.at < len(data):
        place, (_, trep) = reader.at, reader.take(2)
        name, read = MESSAGES[trep]
        messages.append({"place": place, "trep": trep, "message": name, **read(reader), **record("signature", reader.take(128))})
    return {"file": "unit", "messages": messages}


def days(data):
    """The string of days: its pointers, its records from the oldest on, and its bytes."""
    oldest, newest, string = number(data[:2]), number(data[2:4]), data[4:]
    records, at = [], oldest
    while True:
        turned = string[at:] + string[:at]
        length = number(turned[2:4])
        if length < 14:
            break
        records.append({**record("card day", turned[:12]), "activityChangeInfos": changes(turned[12:length], True)})
        if at == newest:
            break
        at = (at + length) % len(string)
    return {"activityPointerOldestDayRecord": oldest, "activityPointerNewestRecord": newest, "activityDailyRecords": records, "bytes": string.hex()}


def sets(name, field, count):
    """Lists of records, so many of one length."""
    return lambda data: {field: [whole(name, data[n * len(data) // count : (n + 1) * len(data) // count]) for n in range(count)]}


def ring(pointer, width, name, field):
    """A pointer, and records behind it."""
    return lambda data: {pointer: number(data[:width]), field: whole(name, data[width:])}


def one(name):
    return lambda data: record(name, data)


FILES = {
    0x0002: ("icc", one("icc")),
    0x0005: ("ic", one("ic")),
    0x0501: ("applicationIdentification", one("application")),
    0x0502: ("eventsData", sets("card event", "cardEventRecords", 6)),
    0x0503: ("faultsData", sets("card fault", "cardFaultRecords", 2)),
    0x0504: ("driverActivityData", days),
    0x0505: ("vehiclesUsed", ring("vehiclePointerNewestRecord", 2, "use", "cardVehicleRecords")),
    0x0506: ("places", ring("placePointerNewestRecord", 1, "place", "placeRecords")),
    0x0507: ("currentUsage", one("current use")),
    0x0508: ("controlActivityData", one("card control")),
    0x050E: ("cardDownload", one("last download")),
    0x0520: ("identification", one("identification")),
    0x0521: ("drivingLicenceInfo", one("licence")),
    0x0522: ("specificConditions", lambda data: {"specificConditionRecords": whole("condition", data)}),
    0xC100: ("cardCertificate", one("certificate")),
    0xC108: ("caCertificate", one("certificate")),
}


def files(data):
    """The files of a card, each with its identifier, its kind and its value."""
    reader = Reader(data)
    while reader.at < len(data):
        place, head = reader.at, reader.take(5)
        yield place, number(head[:2]), head[2], reader.take(number(head[3:]))


def card(data):
    """A card file."""
    told = []
    for place, fid, kind, content in files(data):
        name, read = FILES.get(fid, ("other", None))
        told.append({"place": place, "fileId": f"{fid:04x}", "name": name, "kind": "signature" if kind else "value", "length": len(content),
                     **({"bytes": content.hex()} if kind or not read else {"value": read(content)})})
    return {"file": "card", "files": told}


def with_last(told, last):
    """What is told of a file with its last so many days alone: a message each of a unit, the newest records of a card's string."""
    if told["file"] == "unit":
        days = [at for at, message in enumerate(told["messages"]) if message["trep"] == 2]
        return {**told, "messages": [message for at, message in enumerate(told["messages"]) if at not in days[:-last]]}
    for file in told["files"]:
        if file["fileId"] == "0504" and "value" in file:
            string = file["value"]
            file["value"] = {name: string[name][-last:] if name == "activityDailyRecords" else string[name] for name in string if name != "bytes"}
    return told
