/*
 * The names of the faults that daly_error_codes lists. docs/FAULTS.md says what each means.
 *
 * They need no object file, and a program that does not print them does not hold them.
 */
#ifndef DALY_FAULTS_H
#define DALY_FAULTS_H

#include "daly.h"

/* The name of the fault at this position, from 0 to 47, as the Rust's ErrorCode has it; "unknown" at any other. */
static inline const char *daly_fault_name(uint8_t position)
{
    static const char *const names[DALY_FAULTS] = {
        "CellVoltHighLevel1",
        "CellVoltHighLevel2",
        "CellVoltLowLevel1",
        "CellVoltLowLevel2",
        "SumVoltHighLevel1",
        "SumVoltHighLevel2",
        "SumVoltLowLevel1",
        "SumVoltLowLevel2",
        "ChargeTempHighLevel1",
        "ChargeTempHighLevel2",
        "ChargeTempLowLevel1",
        "ChargeTempLowLevel2",
        "DischargeTempHighLevel1",
        "DischargeTempHighLevel2",
        "DischargeTempLowLevel1",
        "DischargeTempLowLevel2",
        "ChargeOvercurrentLevel1",
        "ChargeOvercurrentLevel2",
        "DischargeOvercurrentLevel1",
        "DischargeOvercurrentLevel2",
        "SocHighLevel1",
        "SocHighLevel2",
        "SocLowLevel1",
        "SocLowLevel2",
        "DiffVoltLevel1",
        "DiffVoltLevel2",
        "DiffTempLevel1",
        "DiffTempLevel2",
        "ChargeMosTempHighAlarm",
        "DischargeMosTempHighAlarm",
        "ChargeMosTempSensorErr",
        "DischargeMosTempSensorErr",
        "ChargeMosAdhesionErr",
        "DischargeMosAdhesionErr",
        "ChargeMosOpenCircuitErr",
        "DischargeMosOpenCircuitErr",
        "AfeCollectChipErr",
        "VoltageCollectDropped",
        "CellTempSensorErr",
        "EepromErr",
        "RtcErr",
        "PrechangeFailure",
        "CommunicationFailure",
        "InternalCommunicationFailure",
        "CurrentModuleFault",
        "SumVoltageDetectFault",
        "ShortCircuitProtectFault",
        "LowVoltForbiddenChargeFault"
    };
    return position < DALY_FAULTS ? names[position] : "unknown";
}

#endif
