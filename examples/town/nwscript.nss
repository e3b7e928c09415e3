// The engine header of the town, in the shape of a game's nwscript.nss: engine types, constants,
// and one declaration for each routine, whose number is its place in this file.

#define ENGINE_NUM_STRUCTURES   5
#define ENGINE_STRUCTURE_0      effect
#define ENGINE_STRUCTURE_1      event
#define ENGINE_STRUCTURE_2      location
#define ENGINE_STRUCTURE_3      talent
#define ENGINE_STRUCTURE_4      itemproperty

// Constants

int    TRUE                         = 1;
int    FALSE                        = 0;

float  DIRECTION_EAST               = 0.0;
float  DIRECTION_NORTH              = 90.0;
float  PI                           = 3.141592;

int    DURATION_TYPE_INSTANT        = 0;
int    DURATION_TYPE_TEMPORARY      = 1;
int    DURATION_TYPE_PERMANENT      = 2;

int    TALKVOLUME_TALK              = 0;
int    TALKVOLUME_WHISPER           = 1;
int    TALKVOLUME_SHOUT             = 2;

int    DAMAGE_TYPE_PIERCING         = 2;
int    DAMAGE_TYPE_MAGICAL          = 8;
int    DAMAGE_TYPE_FIRE             = 0x100;

int    VFX_DUR_LIGHT_YELLOW_10      = 153;
int    VFX_IMP_HEAD_HEAL            = 33;

int    INVALID_COUNT                = -1;
string NO_TAG                       = "";
object OBJECT_NONE                  = OBJECT_INVALID;

// Get an integer between 0 and nMaxInteger-1.
int Random(int nMaxInteger);
// Output sString to the log.
void PrintString(string sString);
// Output fFloat to the log.
void PrintFloat(float fFloat, int nWidth=18, int nDecimals=9);
// Convert fFloat into a string.
string FloatToString(float fFloat, int nWidth=18, int nDecimals=9);
// Output nInteger to the log.
void PrintInteger(int nInteger);
// Output oObject's number to the log.
void PrintObject(object oObject);
// Assign aActionToAssign to oActionSubject.
void AssignCommand(object oActionSubject, action aActionToAssign);
// Delay aActionToDelay by nMilliseconds.
void DelayCommand(int nMilliseconds, action aActionToDelay);
// Make oTarget run sScript at once.
void ExecuteScript(string sScript, object oTarget=OBJECT_SELF);
// Clear all the actions of the caller.
void ClearAllActions(int nClearCombatState=FALSE);
// Cause the caller to face fDirection.
void SetFacing(float fDirection);
// Add aActionToDo to the caller's queue.
void ActionDoCommand(action aActionToDo);
// Do nothing for nMilliseconds, as an action of the caller's queue.
void ActionWait(int nMilliseconds);
// Add a speech to the caller's queue.
void ActionSpeakString(string sStringToSpeak, int nTalkVolume=TALKVOLUME_TALK);
// The caller speaks at once.
void SpeakString(string sStringToSpeak, int nTalkVolume=TALKVOLUME_TALK);
// Get the nNth object with the specified tag.
object GetObjectByTag(string sTag, int nNth=0);
string GetTag(object oObject);
int GetIsObjectValid(object oObject);
vector GetPosition(object oTarget);
location GetLocation(object oObject);
vector Vector(float x=0.0f, float y=0.0f, float z=0.0f);
float GetDistanceBetween(object oObjectA, object oObjectB);
// Local variables.
int GetLocalInt(object oObject, string sVarName);
float GetLocalFloat(object oObject, string sVarName);
string GetLocalString(object oObject, string sVarName);
void SetLocalInt(object oObject, string sVarName, int nValue);
void SetLocalFloat(object oObject, string sVarName, float fValue);
void SetLocalString(object oObject, string sVarName, string sValue);
void DeleteLocalInt(object oObject, string sVarName);
void DeleteLocalString(object oObject, string sVarName);
// Effects.
void ApplyEffectToObject(int nDurationType, effect eEffect, object oTarget, int nMilliseconds=0);
void RemoveEffect(object oCreature, effect eEffect);
effect EffectDamage(int nDamageAmount, int nDamageType=DAMAGE_TYPE_MAGICAL, int nDamagePower=0);
effect EffectHeal(int nDamageToHeal);
effect EffectVisualEffect(int nVisualEffectId, int nMissEffect=FALSE);
itemproperty ItemPropertyLight(int nBrightness, int nColor);
// Doors and placeables.
void ActionOpenDoor(object oDoor);
void ActionCloseDoor(object oDoor);
void SetLocked(object oTarget, int bLocked);
// User-defined events.
event EventUserDefined(int nUserDefinedEventNumber);
void SignalEvent(object oObject, event evToRun);
int GetUserDefinedEventNumber();
// Numbers and strings.
int abs(int nValue);
float fabs(float fValue);
string IntToString(int nInteger);
int StringToInt(string sNumber);
string IntToHexString(int nInteger);
int GetStringLength(string sString);
string GetStringLeft(string sString, int nCount);
string GetStringRight(string sString, int nCount);
string GetSubString(string sString, int nStart, int nCount);
string InsertString(string sDestination, string sString, int nPosition);
// The cell of a 2DA table.
string Get2DAString(string s2DA, string sColumn, int nRow);
