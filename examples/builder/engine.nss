// An engine header in the shape of the game's, with the routines that these scripts call.

#define ENGINE_NUM_STRUCTURES   8
#define ENGINE_STRUCTURE_0      effect
#define ENGINE_STRUCTURE_1      event
#define ENGINE_STRUCTURE_2      location
#define ENGINE_STRUCTURE_3      talent
#define ENGINE_STRUCTURE_4      itemproperty
#define ENGINE_STRUCTURE_5      sqlquery
#define ENGINE_STRUCTURE_6      cassowary
#define ENGINE_STRUCTURE_7      json
#define IS_ENHANCED

int    TRUE                          = 1;
int    FALSE                         = 0;
float  PI                            = 3.141592; // of a circle

int    OBJECT_TYPE_CREATURE          = 1;
int    OBJECT_TYPE_ITEM              = 2;
int    OBJECT_TYPE_DOOR              = 8;
int    OBJECT_TYPE_ALL               = 32767;
int    OBJECT_TYPE_INVALID           = 32767;
int    TALKVOLUME_TALK               = 0;
int    TALKVOLUME_SHOUT              = 2; /* heard in the whole area */
int    DURATION_TYPE_INSTANT         = 0;
int    DURATION_TYPE_TEMPORARY       = 1;
int    DURATION_TYPE_PERMANENT       = 2;
int    DAMAGE_TYPE_PIERCING          = 2;
int    DAMAGE_TYPE_MAGICAL           = 8;
int    DAMAGE_TYPE_FIRE              = 256;
int    ABILITY_DEXTERITY             = 1;
int    ABILITY_CHARISMA              = 5;
int    SKILL_SEARCH                  = 14;
int    VFX_DUR_LIGHT_YELLOW_10       = 0x00C8;
int    VFX_IMP_SLEEP                 = 0x0050;
int    NUM_INVENTORY_SLOTS           = 18;
json   JSON_NULL                     = "";

int Random(int nMaxInteger);
void PrintString(string sString);
void PrintFloat(float fFloat, int nWidth=18, int nDecimals=9);
string FloatToString(float fFloat, int nWidth=18, int nDecimals=9);
void PrintInteger(int nInteger);
void PrintObject(object oObject);
void AssignCommand(object oActionSubject,action aActionToAssign);
void DelayCommand(float fSeconds, action aActionToDelay);
void ExecuteScript(string sScript, object oTarget=OBJECT_SELF);
void ClearAllActions(int nClearCombatState=FALSE, object oObject=OBJECT_SELF);
void ActionRandomWalk();
void ActionMoveToLocation(location lDestination, int bRun=FALSE);
void ActionMoveToObject(object oMoveTo, int bRun=FALSE, float fRange=1.0f);
object GetEnteringObject();
object GetExitingObject();
object GetLastUsedBy();
object GetLastOpenedBy();
object GetClickingObject();
object GetPCSpeaker();
object GetItemPossessedBy(object oCreature, string sItemTag);
object CreateItemOnObject(string sItemTemplate, object oTarget=OBJECT_SELF, int nStackSize=1, string sNewTag="");
void ActionPickUpItem(object oItem);
void ActionOpenDoor(object oDoor);
void ActionCloseDoor(object oDoor);
int GetIsOpen(object oObject);
int GetLocked(object oTarget);
void SetLocked(object oTarget, int bLocked);
void ActionSpeakString(string sStringToSpeak, int nTalkVolume=TALKVOLUME_TALK);
void SpeakString(string sStringToSpeak, int nTalkVolume=TALKVOLUME_TALK);
void SpeakOneLinerConversation(string sDialogResRef="", object oTokenTarget=OBJECT_TYPE_INVALID);
void ActionStartConversation(object oObjectToConverseWith, string sDialogResRef="", int bPrivateConversation=FALSE, int bPlayHello=TRUE);
float GetDistanceBetween(object oObjectA, object oObjectB);
float HoursToSeconds(int nHours);
float RoundsToSeconds(int nRounds);
int GetTimeHour();
int GetIsDay();
int GetIsNight();
int GetIsDawn();
int GetIsDusk();
int GetCalendarDay();
location GetLocation(object oObject);
object CreateObject(int nObjectType, string sTemplate, location lLocation, int bUseAppearAnimation=FALSE, string sNewTag="");
void DestroyObject(object oDestroy, float fDelay=0.0f);
object GetObjectByTag(string sTag, int nNth=0);
object GetWaypointByTag(string sWaypointTag);
object GetNearestObjectByTag(string sTag, object oTarget=OBJECT_SELF, int nNth=1);
string GetTag(object oObject);
string GetName(object oObject, int bOriginalName=FALSE);
int GetIsObjectValid(object oObject);
int GetIsPC(object oCreature);
int GetHitDice(object oCreature);
int GetGold(object oTarget=OBJECT_SELF);
void GiveGoldToCreature(object oCreature, int nGP);
void TakeGoldFromCreature(int nAmount, object oCreatureToTakeFrom, int bDestroy=FALSE);
int GetAbilityScore(object oCreature, int nAbilityType, int nBaseAbilityScore=FALSE);
int GetSkillRank(int nSkill, object oTarget=OBJECT_SELF, int nBaseSkillRank=FALSE);
int d6(int nNumDice=1);
int d20(int nNumDice=1);
int d100(int nNumDice=1);
int abs(int nValue);
int GetLocalInt(object oObject, string sVarName);
string GetLocalString(object oObject, string sVarName);
object GetLocalObject(object oObject, string sVarName);
void SetLocalInt(object oObject, string sVarName, int nValue);
void SetLocalString(object oObject, string sVarName, string sValue);
void SetLocalObject(object oObject, string sVarName, object oValue);
void DeleteLocalInt(object oObject, string sVarName);
void DeleteLocalString(object oObject, string sVarName);
string IntToString(int nInteger);
int StringToInt(string sNumber);
int GetStringLength(string sString);
string GetStringLeft(string sString, int nCount);
string GetStringRight(string sString, int nCount);
string GetSubString(string sString, int nStart, int nCount);
int FindSubString(string sString, string sSubString, int nStart=0);
void ActionWait(float fSeconds);
void ActionDoCommand(action aActionToDo);
effect EffectDamage(int nDamageAmount, int nDamageType=DAMAGE_TYPE_MAGICAL, int nDamagePower=0);
effect EffectHeal(int nDamageToHeal);
effect EffectSleep();
effect EffectVisualEffect(int nVisualEffectId, int nMissEffect=FALSE, float fScale=1.0f,
                          vector vTranslate=[0.0,0.0,0.0], vector vRotate=[0.0,0.0,0.0]);
void ApplyEffectToObject(int nDurationType, effect eEffect, object oTarget, float fDuration=0.0f);
void RemoveEffect(object oCreature, effect eEffect);
event EventUserDefined(int nUserDefinedEventNumber);
void SignalEvent(object oObject, event evToRun);
int GetUserDefinedEventNumber();
string Get2DAString(string s2DA, string sColumn, int nRow);
void PlaySound(string sSoundName);
void FloatingTextStringOnCreature(string sStringToDisplay, object oCreatureToFloatAbove, int bBroadcastToFaction=TRUE);
void AdjustReputation(object oTarget, object oSourceFactionMember, int nAdjustment);
void SetTrapDisabled(object oTrap);
json GetLocalJson(object oObject, string sVarName);
void SetLocalJson(object oObject, string sVarName, json jValue=JSON_NULL);
